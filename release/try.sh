#!/usr/bin/env bash
# Tries an archive as somebody would who has nothing else: in a fresh Debian, with the packages and the commands of its
# README, and nothing more. What the monitor, the program and the hypervisor's guest print is compared; of what the
# threads are told `its check` has to say `agrees`, and where there is no `its` it has to come to its end.
#
# usage: release/try.sh [--arm] ARCHIVE [FOLDER]     as root; FOLDER, in which the system is made, is kept
#
# The Debian is for x86-64, made by debootstrap: there an archive for aarch64 is tried by the cross compiler and the
# qemu-user that its README names. With --arm such an archive is tried as on an Arm machine: mmdebstrap unpacks the
# packages for arm64, and qemu-aarch64-static runs each program of them, down to gcc and QEMU. For that the kernel has to
# be 6.7 or later, or binfmt_misc has to have qemu-aarch64 already.
set -euo pipefail
export LC_ALL=C

usage() {
    sed -n 's/^# usage: /usage: /p' "$0" >&2
    exit 2
}

arm=
if [ "${1:-}" = --arm ]; then
    arm=1
    shift
fi
[ $# -ge 1 ] && [ $# -le 2 ] || usage
archive=$(realpath "$1")
name=$(basename "$archive" .tar.gz)
if [ $# -eq 2 ]; then
    mkdir -p "$2"
    root=$(realpath "$2")
else
    root=$(mktemp -d)
    trap 'rm -rf --one-file-system "$root"' EXIT
fi

readme=$(tar -xzOf "$archive" "$name/README.md")
packages=$(sed -nE 's/^In this folder, on a Debian with (.*):$/\1/p' <<<"$readme" | sed 's/ and /,/; s/, /,/g')
commands=$(awk '/^## /{here = /^## Try it/} here && /^    /' <<<"$readme" | sed 's/^    //')
[ -n "$packages" ] && [ -n "$commands" ] || { echo "the README says nothing to try" >&2 && exit 1; }
if [ "$arm" ]; then # what the README says of an Arm machine
    packages=$(sed 's/gcc-aarch64-linux-gnu,libc6-dev-arm64-cross,qemu-user-static/gcc,libc6-dev/' <<<"$packages")
    commands=$(sed 's/^aarch64-linux-gnu-gcc /gcc /; s/^qemu-aarch64-static //' <<<"$commands")
fi

# A Debian in $root with these packages.
made() {
    local suite=${SUITE:-bookworm} mirror=${MIRROR:-http://deb.debian.org/debian}
    if [ "$arm" ]; then
        mmdebstrap --variant=extract --architectures=arm64 --include='?essential' --include="$packages" "$suite" \
            "$root" "$mirror"
    else
        debootstrap --variant=minbase --include="$packages" "$suite" "$root" "$mirror"
    fi
}

[ -x "$root/usr/bin/man" ] || said=$(made 2>&1) || { tail -n 5 <<<"$said" >&2 && exit 1; }
rm -rf "$root/root/$name"
tar --no-same-owner -xzf "$archive" -C "$root/root"
failed=0

# Has the kernel run programs for arm64 by qemu-user, in a namespace of its own.
registered='mount -t binfmt_misc binfmt_misc /proc/sys/fs/binfmt_misc
printf %s ":qemu-aarch64:M::\x7fELF\x02\x01\x01\x00\x00\x00\x00\x00\x00\x00\x00\x00\x02\x00\xb7\x00:$1:$2:F" \
    >/proc/sys/fs/binfmt_misc/register
shift 2
exec "$@"'
mask='\xff\xff\xff\xff\xff\xff\xff\x00\xff\xff\xff\xff\xff\xff\xff\xff\xfe\xff\xff\xff'
run=()
if [ "$arm" ] && [ ! -e /proc/sys/fs/binfmt_misc/qemu-aarch64 ]; then
    run=(unshare --user --map-root-user --mount bash -euc "$registered" registered "$mask" "$(command -v qemu-aarch64-static)")
fi

# Runs a command of the README in the unpacked folder. What is emulated twice takes its time.
inside() {
    "${run[@]}" chroot "$root" /usr/bin/env -i PATH=/usr/sbin:/usr/bin:/sbin:/bin HOME=/root LC_ALL=C PATIENCE=600 \
        sh -euc "cd '/root/$name' && $1"
}

# What a command has to print, as the README says.
expected() {
    case $1 in
        *./monitor) echo examples/monitor/expected.txt ;;
        './its run < '*) sed -E 's/.*< (.*)\.its$/\1.report/' <<<"$1" ;;
    esac
}

while read -r command <&3; do
    status=0
    inside "$command" >"$root/root/printed" 2>&1 || status=$?
    wanted=$(expected "$command")
    if [ "$status" -eq 0 ] && [ -n "$wanted" ]; then
        diff "$root/root/printed" "$root/root/$name/$wanted" >&2 || status=1
    fi
    case $command in
        man\ *) grep -q '^NAME' "$root/root/printed" || status=1 ;;
        *'./threads > '*) tail -n 1 "$root/root/$name/${command##* > }" | grep -qx done || status=1 ;;
        './its check < '*) grep -qx agrees "$root/root/printed" || status=1 ;;
        *run.sh\ run\ *) grep -q '^first guest: as expected' "$root/root/printed" || status=1 ;;
    esac
    if [ "$status" -eq 0 ]; then
        echo "passed: $command"
    else
        echo "FAILED: $command"
        tail -n 5 "$root/root/printed"
        failed=1
    fi
done 3<<<"$commands"
exit "$failed"
