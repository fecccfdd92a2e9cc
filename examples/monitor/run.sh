#!/usr/bin/env bash
# Builds and runs the monitors over the library, and compares what they print.
#
# usage: examples/monitor/run.sh [times]                        x86-64; times also tells how long calls take, those too
#                                                               whose cost a guest can choose
#        examples/monitor/run.sh rates|stack|figures [SHARED [ARCHIVE]]
#                                                x86-64: signals of threads, the stack of each call, or all of docs/LIBRARY.md
#        examples/monitor/run.sh arm ARCHIVE [SHARED]             aarch64, under qemu-user
#
# ARCHIVE is libits_c.a and SHARED libits_shared.a; without them those in out/ of crates/its_c and crates/its_shared.
# They are built first: cd crates/its_c && rt lib [--target aarch64-unknown-linux-gnu], and so in crates/its_shared.
# MILLISECONDS, ROUNDS and PAUSES in the environment are those of rates.c.
set -u

usage() {
    sed -n 's/^# usage: /usage: /p; s/^#        /       /p' "$0" >&2
    exit 2
}

here=$(dirname "$(realpath "$0")")
task=${1:-}
shared=$here/../../crates/its_shared/out/libits_shared.a
archive=$here/../../crates/its_c/out/libits_c.a
case $task in
    '' | times) [ $# -le 1 ] || usage ;;
    rates | stack | figures)
        [ $# -le 3 ] || usage
        shared=${2:-$shared} archive=${3:-$archive}
        ;;
    arm)
        [ $# -eq 2 ] || [ $# -eq 3 ] || usage
        archive=$2 shared=${3:-}
        ;;
    *) usage ;;
esac
archive=$(realpath -m "$archive")
[ -z "$shared" ] || shared=$(realpath -m "$shared")
if [ "$task" = arm ]; then
    compiler=${CC:-aarch64-linux-gnu-gcc} static=-static
    runner=${RUNNER:-qemu-aarch64-static}
    target=aarch64-unknown-linux-gnu
    export CARGO_TARGET_AARCH64_UNKNOWN_LINUX_GNU_LINKER=$compiler
    export CARGO_TARGET_AARCH64_UNKNOWN_LINUX_GNU_RUSTFLAGS="-C target-feature=+crt-static"
    if ! command -v "$runner" >/dev/null; then
        echo "$runner isn't there: nothing for aarch64 can run"
        exit 1
    fi
else
    compiler=${CC:-gcc} static=
    runner=
    target=x86_64-unknown-linux-gnu
fi
cd "$here" || exit 1
if [ ! -f "$archive" ]; then
    echo "$archive isn't there: build it by 'rt lib' in crates/its_c"
    exit 1
fi
program=../../crates/its_cli/out/its_cli
work=$(mktemp -d)
trap 'rm -rf "$work"' EXIT
failed=0

# Prints whether a step passed.
tell() {
    if [ "$2" -eq 0 ]; then
        echo "$1: passed"
    else
        echo "$1: FAILED"
        failed=1
    fi
}

# The steps, signals and acknowledgements of a report or of a monitor, without places and threads.
replies() {
    sed -E 's/^[0-9]+ [0-9]+[.][0-9]+ //' | grep -E '^(step|signal|take) [^:]*->|^step ->' | grep -v '^signal 4294967295'
}

# Builds a program of these C files.
build() {
    local program=$1
    shift
    "$compiler" -std=c11 -Wall -Wextra -Werror -O2 $static -I../../include "$@" "$archive" -o "$work/$program"
}

# What threads were told, and the script of their calls, by the program.
check_history() {
    [ -x "$program" ] || return 0
    "$program" check <"$1" | diff - <(echo agrees)
    tell "what they were told is one history" "$((PIPESTATUS[0] | PIPESTATUS[1]))"
}

# Builds a program whose threads share a machine, of these C files and archives.
build_shared() {
    local program=$1
    shift
    "$compiler" -std=c11 -Wall -Wextra -Werror -pedantic -O2 -pthread $static -I../../include "$@" -o "$work/$program"
}

# Measures over both archives.
measure() {
    if [ ! -f "$shared" ]; then
        echo "$shared isn't there: build it by 'rt lib' in crates/its_shared"
        return 1
    fi
    build_shared "$1" "$1.c" heap.c "$shared" "$archive" && "$work/$1" "${MILLISECONDS:-100}" "${ROUNDS:-3}" "${2:-${PAUSES:-0}}"
}

case $task in
    rates | stack)
        measure "$task"
        exit
        ;;
    figures)
        measure rates 0 && echo && measure rates 130 && echo && measure stack
        exit
        ;;
esac

if command -v "$compiler" >/dev/null; then
    if command -v python3 >/dev/null; then
        python3 check_header.py ../../include/its.h ../../crates/its_{numbers,c,shared}/src/*.rt >"$work/header.c" &&
            "$compiler" -std=c11 -Wall -Wextra -Werror -I../../include -fsyntax-only "$work/header.c"
        tell "header against sources" $?
    else
        echo "python3 isn't there: the header is not compared with the sources"
    fi
    ./check_symbols.sh "$archive" ../../include/its.h
    tell "what the archive calls and has" $?
    build monitor monitor.c heap.c && $runner "$work/monitor" | diff - expected.txt
    tell "monitor in C" "$((PIPESTATUS[0] | PIPESTATUS[1]))"
    if [ -n "$runner" ]; then
        : # what its run replies doesn't go with the processor, and is compared on x86-64
    elif [ -x "$program" ]; then
        replies <expected.txt >"$work/said" && "$program" run <monitor.its | replies | diff - "$work/said"
        tell "what its run replies to the same calls" $?
    else
        echo "crates/its_cli/out/its_cli isn't there: the monitor's replies are not compared with those of its run"
    fi
    build many many.c heap.c && $runner "$work/many"
    tell "512 processors, and two translators" $?
    build room room.c && $runner "$work/room"
    tell "the memory of 512 processors, and of a save" $?
    build refusals refusals.c && $runner "$work/refusals"
    tell "each allocation refused in turn" $?
    if [ -z "$shared" ]; then
        echo "no archive of passes is given: no threads are tried"
    elif [ -f "$shared" ]; then
        ./check_symbols.sh "$shared" ../../include/its.h
        tell "what the archive of passes calls and has" $?
        build_shared threads threads.c heap.c "$shared" && $runner "$work/threads" >"$work/report" &&
            [ "$(tail -n 1 "$work/report")" = done ]
        tell "threads that share a machine" $?
        check_history "$work/report"
    else
        echo "$shared isn't there: 'rt lib' in crates/its_shared builds it. No threads are tried"
    fi
    if [ "$task" = times ]; then
        build times times.c heap.c && "$work/times"
        tell "times" $?
        build costs costs.c heap.c && "$work/costs"
        tell "what a guest can choose" $?
    fi
else
    echo "$compiler isn't there: the monitor in C is left out"
fi

if ! command -v cargo >/dev/null; then
    echo "cargo isn't there: the monitor in Rust is left out"
elif [ ! -d "$(rustc --print target-libdir --target "$target")" ]; then
    echo "rustc has no standard library for $target: the monitor in Rust is left out"
else
    mkdir "$work/library" && cp "$archive" "$work/library/libits_c.a"
    ITS_C_LIB=$work/library CARGO_TARGET_DIR=$work/rust \
        cargo build --quiet --release --offline --target "$target" --manifest-path rust/Cargo.toml &&
        $runner "$work/rust/$target/release/monitor" | diff - expected_rust.txt
    tell "monitor in Rust" "$((PIPESTATUS[0] | PIPESTATUS[1]))"
    if [ -n "$shared" ] && [ -f "$shared" ]; then
        cp "$shared" "$work/library/libits_shared.a"
        rustc -O --edition 2021 --target "$target" ${static:+-C target-feature=+crt-static -C "linker=$compiler"} \
            -L "$work/library" -o "$work/threads_rust" threads.rs && $runner "$work/threads_rust" >"$work/report_rust" &&
            [ "$(tail -n 1 "$work/report_rust")" = done ]
        tell "threads in Rust that share a machine" $?
        check_history "$work/report_rust"
    fi
fi
exit "$failed"
