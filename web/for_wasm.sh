#!/bin/sh
# web/for_wasm.sh MODULE.bc OUT.a: what rattle's back end made of the proved library for x86-64, as LLVM has it, compiled
# for wasm64, where numbers and places have the same sizes. The kit's back end for wasm64 refuses calls of C functions,
# as those of the heap are.
set -eu
kit=${KIT:-/opt/rattle}
clang=$kit/toolchain/bin/clang
work=$(mktemp -d)
trap 'rm -rf "$work"' EXIT
"$clang" --target=x86_64-unknown-linux-gnu --no-default-config -Xclang -disable-llvm-passes \
    -x ir "$1" -S -emit-llvm -o "$work/module.ll"
layout='e-m:e-p:64:64-p10:8:8-p20:8:8-i64:64-i128:128-n32:64-S128-ni:1:10:20'
sed -E -i -e "s/^target datalayout.*/target datalayout = \"$layout\"/" \
    -e 's/^target triple.*/target triple = "wasm64-unknown-unknown"/' \
    -e 's/ "(probe-stack|stack-probe-size|target-cpu)"="[^"]*"//g' "$work/module.ll"
"$clang" --target=wasm64-unknown-unknown --no-default-config -x ir "$work/module.ll" -c -O2 -mbulk-memory \
    -ffunction-sections -o "$work/its_web.o"
"$clang" --target=wasm64-unknown-unknown --no-default-config -std=c11 -Wall -Wextra -Werror -O2 -fno-builtin \
    -ffreestanding -c "$(dirname "$0")/wide.c" -o "$work/wide.o"
rm -f "$2"
"$kit/toolchain/bin/llvm-ar" rcs "$2" "$work/its_web.o" "$work/wide.o"
