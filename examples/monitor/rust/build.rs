//! Links crates/its_c/out/libits_c.a, or the one in the folder that ITS_C_LIB names.
use std::env;
use std::path::Path;

fn main() {
    println!("cargo:rerun-if-env-changed=ITS_C_LIB");
    let here = env::var("CARGO_MANIFEST_DIR").expect("cargo says where it builds");
    let built = Path::new(&here).join("../../../crates/its_c/out");
    let folder = env::var("ITS_C_LIB").unwrap_or(built.display().to_string());
    println!("cargo:rerun-if-changed={folder}/libits_c.a");
    println!("cargo:rustc-link-search=native={folder}");
    println!("cargo:rustc-link-lib=static=its_c");
}
