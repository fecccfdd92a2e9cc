#!/usr/bin/env bash
# Records QEMU's translator at work. README.md says what for.
#
# usage: record.sh linux DIR [ROUNDS]             downloads a Linux and records a boot of it: DIR/linux.log
#        record.sh hibernate DIR [PROCESSORS]    the same, of a Linux that writes a hibernation image and goes on
#        record.sh kexec DIR [PROCESSORS]        the same, of a Linux that starts another one by kexec
#        record.sh many DIR PROCESSORS [ROUNDS]  the same, of a Linux with more than 41 processors
#        record.sh guest DIR SEED BATCHES [OPTIONS OF generate.py]      the same with guest.c: DIR/guest.log
#        record.sh differences DIR [CASE]         the same with differences.py
#        record.sh play PROGRAM LOG [OPTIONS OF to_script.py]           plays a log as a script, and compares
set -eu

here=$(dirname "$(realpath "$0")")
events=(-d guest_errors -trace 'gicv3_its*' -trace gicv3_redist_write -trace gicv3_redist_badwrite
    -trace gicv3_redist_read -trace gicv3_icc_iar1_read)
kernel=6.1.0-50-cloud-arm64
processors=4
time=(-accel tcg,thread=multi)

# One QEMU at a time: DIR, the log's name, megabytes of memory, the other arguments.
run_qemu() {
    local dir=$1 name=$2 size=$3
    shift 3
    rm -f "$dir/ram"
    truncate -s "${size}M" "$dir/ram"
    nice -n 15 python3 "$here/record.py" "$dir/$name.log" "$dir/ram" 0x40000000 -- \
        qemu-system-aarch64 -M virt,gic-version=3,its=on,memory-backend=ram -cpu cortex-a57 \
        -smp "$processors" "${time[@]}" -m "${size}M" \
        -object "memory-backend-file,id=ram,size=${size}M,mem-path=$dir/ram,share=on" -nographic -nodefaults \
        "${events[@]}" "$@"
    rm -f "$dir/ram"
}

# A kernel and busybox from Debian (dpkg --add-architecture arm64; apt-get update), and a first file system of them.
fetch_linux() {
    local dir=$1 modules m
    (cd "$dir" && apt-get download "linux-image-$kernel" busybox-static:arm64)
    dpkg -x "$dir"/linux-image-"$kernel"_*.deb "$dir/kernel"
    dpkg -x "$dir"/busybox-static_*.deb "$dir/busybox"
    mkdir -p "$dir/root/bin" "$dir/root/lib" "$dir/root/proc" "$dir/root/sys" "$dir/root/dev"
    cp "$dir/busybox/bin/busybox" "$dir/root/bin/"
    ln -sf busybox "$dir/root/bin/sh"
    modules=$dir/kernel/lib/modules/$kernel/kernel
    for m in drivers/virtio/virtio drivers/virtio/virtio_ring drivers/virtio/virtio_pci_modern_dev \
        drivers/virtio/virtio_pci_legacy_dev drivers/virtio/virtio_pci drivers/block/virtio_blk \
        drivers/char/hw_random/virtio-rng net/core/failover drivers/net/net_failover drivers/net/virtio_net; do
        cp "$modules/$m.ko" "$dir/root/lib/"
    done
}

# The files of kexec, which starts a second kernel, and the libraries that it is linked with.
fetch_kexec() {
    local dir=$1 library
    (cd "$dir" && apt-get download kexec-tools:arm64 libc6:arm64 zlib1g:arm64 libxenmisc4.17:arm64 \
        libxentoollog1:arm64 libxentoolcore1:arm64 libxencall1:arm64 libxenevtchn1:arm64 libxengnttab1:arm64 \
        libxenforeignmemory1:arm64 libxendevicemodel1:arm64)
    for library in "$dir"/kexec-tools_*.deb "$dir"/lib*.deb "$dir"/zlib1g_*.deb; do
        dpkg -x "$library" "$dir/kexec"
    done
    mkdir -p "$dir/second/lib" "$dir/second/second"
    cp "$dir/kexec/sbin/kexec" "$dir/second/second/"
    for library in ld-linux-aarch64.so.1 libc.so.6 libz.so.1 libxenctrl.so.4.17 libxentoollog.so.1 libxentoolcore.so.1 \
        libxencall.so.1 libxenevtchn.so.1 libxengnttab.so.1 libxenforeignmemory.so.1 libxendevicemodel.so.1; do
        cp -L "$dir"/kexec/lib/aarch64-linux-gnu/$library "$dir/second/lib/" 2>/dev/null ||
            cp -L "$dir"/kexec/usr/lib/aarch64-linux-gnu/$library "$dir/second/lib/"
    done
}

# A folder's files as an archive that Linux unpacks as it starts.
pack() {
    (cd "$1" && find . | cpio -o -H newc --quiet | gzip -1)
}

# The second kernel, with what it starts from, joins what the first one starts from.
add_second() {
    local dir=$1
    [ -d "$dir/second" ] || fetch_kexec "$dir"
    cp "$dir/kernel/boot/vmlinuz-$kernel" "$dir/second/second/vmlinuz"
    cp "$dir/initrd.gz" "$dir/second/second/"
    pack "$dir/second" >>"$dir/initrd.gz"
}

# A kernel's words, and a number of processors for a small machine with one disk, in place of four and all devices.
# One with many has a disk with a queue for each processor, and two devices whose interrupts may be moved.
record_linux() {
    local dir=$1 words=$2 devices
    [ -z "${3:-}" ] || processors=$3
    if [ "$processors" -gt 16 ]; then
        # One thread of QEMU's for all, and a clock that goes by what they do: else a slow host leaves them no time but
        # for their timers.
        time=(-accel tcg,thread=single -icount shift=0)
        devices=(-device "virtio-blk-pci,drive=d0,num-queues=$processors"
            -netdev "user,id=n0" -device "virtio-net-pci,netdev=n0,romfile=" -device virtio-rng-pci)
    elif [ -n "${3:-}" ]; then
        devices=(-device "virtio-blk-pci,drive=d0,num-queues=1")
    else
        devices=(-device "virtio-blk-pci,drive=d0,num-queues=4"
            -drive "if=none,id=d1,file=$dir/disk1,format=raw" -device "nvme,drive=d1,serial=n1"
            -netdev "user,id=n0" -device "virtio-net-pci,netdev=n0,romfile=" -device virtio-rng-pci)
    fi
    [ -d "$dir/root" ] || fetch_linux "$dir"
    cp "$here/init" "$dir/root/init"
    chmod +x "$dir/root/init"
    pack "$dir/root" >"$dir/initrd.gz"
    case "$words" in *kexec*) add_second "$dir" ;; esac
    rm -f "$dir/disk0"
    truncate -s 512M "$dir/disk0" "$dir/disk1"
    run_qemu "$dir" linux 512 -serial "file:$dir/console.txt" -no-reboot \
        -kernel "$dir/kernel/boot/vmlinuz-$kernel" -initrd "$dir/initrd.gz" \
        -append "console=ttyAMA0 quiet panic=-1 $words" \
        -drive "if=none,id=d0,file=$dir/disk0,format=raw" "${devices[@]}"
    tail -n 2 "$dir/console.txt"
}

# The second kernel works a round, and that of a small machine only as it starts.
record_kexec() {
    local rounds=1
    [ -z "${2:-}" ] || rounds=0
    record_linux "$1" "rounds=0 kexec=$rounds" "${2:-}"
}

record_guest() {
    local dir=$1
    aarch64-linux-gnu-gcc -O1 -Wall -Wextra -ffreestanding -nostdlib -static -mgeneral-regs-only -mstrict-align \
        -fno-stack-protector -fno-pie -no-pie -Wl,-Ttext=0x40080000,--build-id=none,-e,_start \
        -o "$dir/guest.elf" "$here/guest.c"
    timeout 60 "$here/record.sh" qemu_guest "$dir"
}

play() {
    local program=$1 base=${2%.log}
    shift 2
    python3 "$here/to_script.py" "$base.log" "$base.its" "$base.answers" "$@"
    "$program" run <"$base.its" >"$base.report" || echo "its run ended with status $?"
    python3 "$here/compare.py" "$base.answers" "$base.report"
}

case "${1:-}" in
linux) mkdir -p "$2" && record_linux "$(realpath "$2")" "rounds=${3:-1}" ;;
hibernate) mkdir -p "$2" && record_linux "$(realpath "$2")" "rounds=0 hibernate" "${3:-}" ;;
kexec) mkdir -p "$2" && record_kexec "$(realpath "$2")" "${3:-}" ;;
many) mkdir -p "$2" && record_linux "$(realpath "$2")" "rounds=${4:-1}" "$3" ;;
guest) mkdir -p "$2" && python3 "$here/generate.py" "${@:3:2}" "$2/ops" "${@:5}" && record_guest "$(realpath "$2")" ;;
differences) mkdir -p "$2" && python3 "$here/differences.py" "$2/ops" "${@:3}" && record_guest "$(realpath "$2")" ;;
qemu_guest) run_qemu "$2" guest 256 -kernel "$2/guest.elf" -device "loader,file=$2/ops,addr=0x48000000,force-raw=on" ;;
play) play "${@:2}" ;;
*) sed -n '4,10s/^# //p' "$0" >&2 && exit 2 ;;
esac
