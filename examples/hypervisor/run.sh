#!/usr/bin/env bash
# A hypervisor that gets its guest's ITS out of the library, and its guests. README.md says what for.
#
# usage: run.sh fetch DIR            fetches a Linux of Debian for arm64, for `linux`
#        run.sh build DIR ARCHIVE    builds the hypervisor and the first guest; ARCHIVE is libits_c.a for aarch64
#        run.sh run DIR              runs the first guest, and compares what it prints with expected.txt
#        run.sh hostile DIR [SEED]   runs a guest that means no good
#        run.sh linux DIR [WORDS]    runs Linux; WORDS are added to the kernel's command line
set -eu

here=$(dirname "$(realpath "$0")")
compiler=${CC:-aarch64-linux-gnu-gcc}
objcopy=${OBJCOPY:-aarch64-linux-gnu-objcopy}
plain="-std=gnu11 -O2 -Wall -Wextra -Werror -ffreestanding -fno-builtin -fno-tree-loop-distribute-patterns -fno-pic
    -fno-stack-protector -fno-asynchronous-unwind-tables -mno-outline-atomics -nostdlib -static -Wl,--build-id=none
    -Wl,-z,noexecstack -Wl,-z,max-page-size=4096 -Wl,--no-warn-rwx-segments"
sources="entry.S main.c world.c traps.c stage2.c lists.c gic.c physical_its.c translator.c psci.c heap.c console.c"

# Lists of packages of this folder's own, with those for arm64, so that those of the host stay as they are.
lists() {
    mkdir -p "$1/apt/lists/partial" "$1/apt/cache/archives/partial"
    for place in "debian bookworm" "debian-security bookworm-security"; do
        echo "deb http://deb.debian.org/$place main"
    done >"$1/apt/sources.list"
    cat >"$1/apt/apt.conf" <<CONF
Dir::Etc::SourceList "$1/apt/sources.list";
Dir::Etc::SourceParts "/dev/null";
Dir::State::Lists "$1/apt/lists";
Dir::Cache "$1/apt/cache";
APT::Architecture "arm64";
APT::Architectures { "arm64"; };
APT::Sandbox::User "";
CONF
    export APT_CONFIG=$1/apt/apt.conf
    apt-get -q update
}

# The kernel that linux-image-cloud-arm64 stands for, and busybox.
fetch() {
    local kernel package
    lists "$1"
    kernel=$(apt-cache depends linux-image-cloud-arm64 | sed -nE 's/.*Depends: (linux-image-[^ :]*).*/\1/p' | head -n 1)
    rm -rf "$1/packages"
    mkdir "$1/packages"
    (cd "$1/packages" && apt-get -q download "$kernel:arm64" busybox-static:arm64)
    for package in "$1"/packages/*.deb; do
        dpkg -x "$package" "$1/packages"
    done
    echo "$kernel"
}

build() {
    mkdir -p "$1"
    (cd "$here" && $compiler $plain -I../../include $sources "$2" -T image.ld -o "$1/hypervisor.elf")
    guest "$1" first
    ${SIZE:-aarch64-linux-gnu-size} "$1/hypervisor.elf" "$1/first.elf"
}

# A guest of one C file: DIR, its name, more flags.
guest() {
    local to=$1/$2
    (cd "$here/guest" && $compiler $plain -mgeneral-regs-only -mstrict-align ${3:-} start.S "$2.c" -T guest.ld \
        -o "$to.elf")
    $objcopy -O binary "$to.elf" "$to.bin"
}

# The machine, with the hypervisor in it. The guest's RAM begins at 0x40000000, and 256 MiB are the hypervisor's.
machine() {
    local dir=$1
    shift
    exec nice -n 10 qemu-system-aarch64 -M virt,virtualization=on,gic-version=3,highmem=off -cpu cortex-a57 -m 1024 \
        -accel "tcg,thread=${THREADS:-single}" -nographic -nodefaults -serial stdio -no-reboot \
        -kernel "$dir/hypervisor.elf" "$@"
}

first() {
    timeout "${PATIENCE:-60}" "$0" machine "$1" -smp 1 -device "loader,file=$1/first.bin,addr=0x40200000,force-raw=on" |
        stdbuf -oL tr -d '\r' | tee "$1/first.log"
    grep -v 'bytes of heap' "$1/first.log" | diff - "$here/expected.txt" # how many is the library's affair
    echo "first guest: as expected"
}

hostile() {
    guest "$1" hostile "-DSEED=$2"
    timeout "${PATIENCE:-300}" "$0" machine "$1" -smp 1 -device "loader,file=$1/hostile.bin,addr=0x40200000,force-raw=on" |
        stdbuf -oL tr -d '\r' | tee "$1/hostile.log"
    local took
    took=$(sed -n 's/^guest: took \([0-9]*\) interrupts/\1/p' "$1/hostile.log")
    grep -q " $took LPIs acknowledged" "$1/hostile.log" # as many as the library was told of
    echo "hostile guest: its hypervisor goes on"
}

# What Linux starts from: busybox, the drivers and init.
initramfs() {
    local root=$1/root modules module
    modules=$(echo "$1"/packages/lib/modules/*/kernel)
    rm -rf "$root"
    mkdir -p "$root/bin" "$root/lib" "$root/proc" "$root/sys" "$root/dev"
    cp "$1/packages/bin/busybox" "$root/bin/"
    ln -s busybox "$root/bin/sh"
    for module in drivers/virtio/virtio_ring drivers/virtio/virtio drivers/virtio/virtio_pci_modern_dev \
        drivers/virtio/virtio_pci_legacy_dev drivers/virtio/virtio_pci drivers/block/virtio_blk \
        drivers/char/hw_random/virtio-rng net/core/failover drivers/net/net_failover drivers/net/virtio_net; do
        cp "$modules/$module.ko" "$root/lib/"
        basename "$module" >>"$root/lib/modules.list"
    done
    cp "$here/guest/init" "$root/init"
    chmod +x "$root/init"
    (cd "$root" && find . | LC_ALL=C sort | cpio -o -H newc --quiet | gzip -1) >"$1/initrd.gz"
}

# The guest's device tree is that of the same machine without a hypervisor, with the guest's memory: QEMU makes it.
linux() {
    local dir=$1 kernel processors=${PROCESSORS:-1}
    shift
    kernel=$(echo "$dir"/packages/boot/vmlinuz-*)
    [ -f "$kernel" ] || { echo "there is no $kernel: run.sh fetch $dir" >&2 && exit 1; }
    initramfs "$dir"
    qemu-system-aarch64 -M "virt,gic-version=3,highmem=off,dumpdtb=$dir/guest.dtb" -cpu cortex-a57 -m 768 \
        -smp "$processors" -nographic -nodefaults -kernel "$kernel" -initrd "$dir/initrd.gz" \
        -append "console=ttyAMA0 panic=-1 $*" 2>/dev/null
    truncate -s 64M "$dir/disk"
    timeout "${PATIENCE:-300}" "$0" machine "$dir" -smp "$processors" \
        -device "loader,file=$kernel,addr=0x40200000,force-raw=on" \
        -device "loader,file=$dir/guest.dtb,addr=0x47000000,force-raw=on" \
        -device "loader,file=$dir/initrd.gz,addr=0x48000000,force-raw=on" \
        -drive "if=none,id=disk,file=$dir/disk,format=raw" -device virtio-blk-pci,drive=disk \
        -netdev user,id=net -device virtio-net-pci,netdev=net,romfile= -device virtio-rng-pci |
        stdbuf -oL tr -d '\r' | tee "$dir/linux.log"
    if grep -qE '^guest: (HANGS|no )|^hypervisor: stopped' "$dir/linux.log" ||
        ! grep -q '^guest: the end' "$dir/linux.log"; then
        echo "Linux: FAILED"
        return 1
    fi
    echo "Linux: works"
}

case "${1:-}" in
fetch) mkdir -p "$2" && fetch "$(realpath "$2")" ;;
build) mkdir -p "$2" && build "$(realpath "$2")" "$(realpath "$3")" ;;
run) first "$(realpath "$2")" ;;
hostile) hostile "$(realpath "$2")" "${3:-1}" ;;
linux) linux "$(realpath "$2")" "${@:3}" ;;
machine) machine "${@:2}" ;;
*) sed -n '4,8s/^# //p' "$0" >&2 && exit 2 ;;
esac
