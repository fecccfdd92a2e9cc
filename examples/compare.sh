#!/usr/bin/env bash
# Compares what a program prints for each script here, and in variations/, with the report beside it.
#
# usage: examples/compare.sh PROGRAM
set -u

if [ $# -ne 1 ]; then
    echo "usage: examples/compare.sh PROGRAM" >&2
    exit 2
fi
program=$(realpath "$1")
cd "$(dirname "$0")" || exit 1
passed=0
failed=0
for script in *.its variations/*.its; do
    report=${script%.its}.report
    [ -f "$report" ] || report=$script.stdout
    if "$program" run <"$script" | cmp - "$report"; then
        passed=$((passed + 1))
    else
        echo "examples/$script: the report differs"
        failed=$((failed + 1))
    fi
done
echo "examples: $passed passed, $failed failed"
[ "$passed" -gt 0 ] && [ "$failed" -eq 0 ]
