#!/usr/bin/env bash
# The library as an archive that nothing has proved, in a minute or two, for a first try of the device.
#
# usage: unproved.sh ARCHIVE
#
# `rt try --test` compiles the tests of its_c without a proof, and these reach each call of its.h. It is run here by a
# folder that stands for the kit, whose clang keeps the module that it compiles. In that module the calls get the names
# that C knows them by, and it is compiled again, without the sanitizer. What rt try checks as it runs is checked then
# too: an index, a sum, a cast. So it is slower than the proved archive, and ends QEMU where a check fails.
set -eu

here=$(dirname "$(realpath "$0")")
archive=$(realpath "$1")
kit=$(dirname "$(rt doc)")
clang=$kit/toolchain/bin/clang
made=$(mktemp -d)
trap 'rm -rf "$made"' EXIT

# The kit, but for its clang.
mkdir -p "$made/kit/bin" "$made/kit/toolchain/bin"
ln -s "$kit"/* "$made/kit/" 2>/dev/null || true
ln -s "$kit"/toolchain/lib "$made/kit/toolchain/"
ln -s "$kit"/toolchain/bin/* "$made/kit/toolchain/bin/"
for file in "$kit"/bin/*; do
    case $file in
    */rt | *.py) cp "$file" "$made/kit/bin/" ;;
    *) ln -s "$file" "$made/kit/bin/" ;;
    esac
done
rm "$made/kit/toolchain/bin/clang"
cat >"$made/kit/toolchain/bin/clang" <<END
#!/bin/sh
[ ! -e module.bc ] || cp module.bc $made/
exec $clang "\$@"
END
chmod +x "$made/kit/toolchain/bin/clang"

(cd "$here/../../crates/its_c" && "$made/kit/bin/rt" try --test)
"$clang" -x ir -S -emit-llvm -Xclang -disable-llvm-passes "$made/module.bc" -o "$made/module.ll"
sed -E -i -e 's/@"its_c::[a-z_]*::(its_[a-z_]*)"/@\1/g' -e 's/^define internal ([^(]*@its_[a-z_]*\()/define \1/' \
    -e 's/sanitize_address//g' -e 's/^define i32 @main\(/define internal i32 @unused_main(/' "$made/module.ll"
"$clang" --target=x86_64-unknown-linux-gnu --no-default-config -fPIC -O2 -ffunction-sections -fdata-sections \
    -c -x ir "$made/module.ll" -o "$made/its_c.o"
# What the test program calls around a test.
printf 'void __rattle_write_place(void) {}\nvoid *__rattle_keep_place(void *p) { return p; }\n' |
    gcc -fPIC -c -x c - -o "$made/places.o"
rm -f "$archive"
ar rcs "$archive" "$made/its_c.o" "$made/places.o"
calls=$(nm "$archive" | grep -c ' T its_')
echo "$archive: $calls calls, unproved"
