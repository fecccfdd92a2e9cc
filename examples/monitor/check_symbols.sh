#!/usr/bin/env bash
# Holds an archive to what a monitor is told of it: it has each call of the header that is its own (those of
# passes, or the others), and calls nothing but
# three functions of memory and three of a heap. So it has no outline atomics (__aarch64_*), which gcc's
# library would have to give it, and no call of a C library besides.
#
# usage: check_symbols.sh ARCHIVE HEADER       NM in the environment names another nm
set -u
export LC_ALL=C

nm=${NM:-nm}
defined=$("$nm" -g --defined-only "$1" | awk 'NF == 3 {print $3}' | sort -u) || exit 1
wanted=$("$nm" -u "$1" | awk 'NF == 2 {print $2}' | sort -u | comm -23 - <(echo "$defined"))
allowed=$(printf '%s\n' memcpy memmove memset rattle_alloc rattle_dealloc rattle_realloc)
calls=$(sed -nE 's/^uint32_t (its_[a-z_]+)\(.*/\1/p' "$2" | sort -u)
of_passes='^its_(share|split|pass_[a-z_]+)$'
if echo "$defined" | grep -q '^its_share$'; then
    calls=$(echo "$calls" | grep -E "$of_passes")
else
    calls=$(echo "$calls" | grep -vE "$of_passes")
fi
failed=0

# Prints each line of the second list with what is wrong with it.
refuse() {
    local name
    for name in $2; do
        echo "$1 $name"
        failed=1
    done
}

[ -n "$calls" ] || refuse "no call is declared in" "$2"
refuse "the archive lacks" "$(comm -23 <(echo "$calls") <(echo "$defined"))"
refuse "the archive calls" "$(comm -23 <(echo "$wanted") <(echo "$allowed"))"
refuse "the archive has, and the header hasn't," "$(echo "$defined" | grep '^its_' | comm -13 <(echo "$calls") -)"
exit "$failed"
