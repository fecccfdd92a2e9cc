#!/bin/sh
# web/build.sh [ARCHIVE]: web/its_web.wasm and web/index.html. ARCHIVE is the static library for wasm64. Without it
# crates/its_web is proved by `rt lib`, in a toolchain whose clang keeps what rattle's back end hands to it, and that is
# compiled for wasm64 (for_wasm.sh). Wants the kit (its clang compiles the heap, and links) and python3.
set -eu
web=$(cd "$(dirname "$0")" && pwd)
kit=${KIT:-/opt/rattle}
archive=${1:-}
work=$(mktemp -d)
trap 'rm -rf "$work"' EXIT
if [ -z "$archive" ]; then
    python3 "$web/keep_module.py" "$kit" "$work/module.bc" "$web/../crates/its_web"
    archive=$work/libits_web.a
    "$web/for_wasm.sh" "$work/module.bc" "$archive"
fi
ln -s "$kit/toolchain/bin/clang" "$work/wasm-ld"
"$kit/toolchain/bin/clang" --target=wasm64-unknown-unknown --no-default-config -std=c11 -Wall -Wextra -Werror -O2 \
    -mbulk-memory -fno-builtin -ffreestanding -c "$web/heap.c" -o "$work/heap.o"
"$work/wasm-ld" -mwasm64 --no-entry --gc-sections --strip-all --stack-first -z stack-size=4194304 \
    --export=its_web_run --export=its_web_explain --export=its_web_check \
    "$work/heap.o" "$archive" -o "$web/its_web.wasm"
python3 "$web/drop_table.py" "$web/its_web.wasm"
python3 "$web/make_page.py" "$web/its_web.wasm" "$web/../examples" >"$web/index.html"
wc -c "$web/its_web.wasm" "$web/index.html"
