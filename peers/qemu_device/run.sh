#!/usr/bin/env bash
# A QEMU with the library's ITS inside, beside its own, and a Linux on it. README.md says what for.
#
# usage: run.sh build DIR ARCHIVE      fetches and builds qemu-system-aarch64 and the guest; ARCHIVE is libits_c.a
#        run.sh preload DIR ARCHIVE    instead: the device for the qemu-system-aarch64 that is installed, and the guest
#        run.sh kernels DIR            more of Debian's kernels for scenarios: 5.10, 6.12 (also -rt and 16k), the newest
#        run.sh patch QEMU ARCHIVE     prints what is put into the files of a tree of QEMU, as a patch
#        run.sh boot DIR library|own   boots the guest, with a shell on this terminal
#        run.sh scenarios DIR [both|library|own [NAME ..]]     runs scenarios, and prints a table
#        run.sh check DIR PROGRAM [RECORD ..]  whether what the library answered in a scenario is the plain translator's
#        run.sh speed DIR [SECONDS]    times of both translators; SECONDS of load, 20 where none are said
set -eu

here=$(dirname "$(realpath "$0")")
kernel=6.1.0-56-cloud-arm64
guest_packages="linux-image-$kernel busybox-static kexec-tools libc6 zlib1g libxenmisc4.17 libxentoollog1 libxentoolcore1
    libxencall1 libxenevtchn1 libxengnttab1 libxenforeignmemory1 libxendevicemodel1"
features="--target-list=aarch64-softmmu --without-default-features --without-default-devices --with-devices-aarch64=its
    --enable-tcg --enable-slirp --enable-fdt=system --enable-trace-backends=log --disable-docs --disable-werror --disable-install-blobs"

# Lists of packages of a folder's own, with sources and arm64, so that those of the host stay as they are.
lists() {
    local place
    mkdir -p "$1/apt/lists/partial" "$1/apt/cache/archives/partial"
    for place in "${@:2}"; do
        echo "deb http://deb.debian.org/$place main"
        echo "deb-src http://deb.debian.org/$place main"
    done >"$1/apt/sources.list"
    cat >"$1/apt/apt.conf" <<EOF
Dir::Etc::SourceList "$1/apt/sources.list";
Dir::Etc::SourceParts "/dev/null";
Dir::State::Lists "$1/apt/lists";
Dir::Cache "$1/apt/cache";
APT::Architectures { "amd64"; "arm64"; };
APT::Sandbox::User "";
EOF
    export APT_CONFIG=$1/apt/apt.conf
    apt-get -q update
}

fetch() {
    local package
    lists "$1" "debian bookworm" "debian bookworm-updates" "debian-security bookworm-security"
    [ -d "$1/qemu" ] || (cd "$1" && apt-get -q source --download-only qemu=1:7.2+dfsg-7+deb12u18 &&
        dpkg-source -x qemu_7.2*.dsc qemu)
    [ -d "$1/packages" ] && return
    mkdir "$1/packages.new"
    (cd "$1/packages.new" && apt-get -q download $(printf '%s:arm64 ' $guest_packages))
    for package in "$1"/packages.new/*.deb; do
        dpkg -x "$package" "$1/packages.new"
    done
    mv "$1/packages.new" "$1/packages"
}

build_qemu() {
    python3 "$here/wire.py" "$1/qemu" "$2" --watch
    mkdir -p "$1/build"
    cd "$1/build"
    [ -e build.ninja ] || ../qemu/configure $features
    rm -f qemu-system-aarch64 "$1/qemu-system-aarch64"
    nice ninja -j "${JOBS:-2}" qemu-system-aarch64
    ln -sf build/qemu-system-aarch64 "$1/qemu-system-aarch64"
}

build_guest() {
    python3 "$here/guest.py" "$1/packages" "$1/packages" "$1"
}

# Each kernel's guest in DIR/kernels/NAME/guest.
kernels() {
    local of=$1/kernels name package packages
    lists "$of" "debian bullseye" "debian trixie" "debian-security trixie-security" "debian trixie-backports"
    while read -r name packages; do
        mkdir -p "$of/$name/guest"
        (cd "$of/$name" && apt-get -q download $(printf '%s:arm64 ' $packages))
        for package in "$of/$name"/*.deb; do
            dpkg -x "$package" "$of/$name"
        done
        python3 "$here/guest.py" "$1/packages" "$of/$name" "$of/$name/guest"
    done <<EOF
5.10 linux-image-5.10.0-32-cloud-arm64
6.12 linux-image-6.12.118+deb13-cloud-arm64
6.12-rt linux-image-6.12.118+deb13-rt-arm64
6.12-16k linux-image-6.12.118+deb13-arm64-16k
7.3 linux-binary-7.3.4+deb13-cloud-arm64 linux-modules-7.3.4+deb13-cloud-arm64
EOF
}

build() {
    fetch "$1"
    build_guest "$1"
    build_qemu "$1" "$2"
}

# The device as a shared object that is loaded before Debian's QEMU, whose sources have the headers. Of its own build
# only the headers that it generates are made.
preload() {
    local of=$1/preload name flags target more
    fetch "$1"
    build_guest "$1"
    mkdir -p "$1/build" "$of/hw/intc"
    cd "$1/build"
    [ -e ../qemu/configs/devices/aarch64-softmmu/its.mak ] ||
        echo CONFIG_ARM_VIRT=y >../qemu/configs/devices/aarch64-softmmu/its.mak
    [ -e build.ninja ] || ../qemu/configure $features
    nice ninja -j "${JOBS:-2}" libcommon.fa.p/hw_intc_arm_gicv3_its_common.c.o
    cp "$here"/device/*.[ch] "$here"/{watch,watch_cpu,written_pages,preload}.c "$here/../../include/its.h" "$of/"
    mv "$of/arm_gicv3_lpi_ops.h" "$of/hw/intc/"
    sed -n 's/^\(bacciledru_[a-z_]*\)(.*/#define trace_\1(...) ((void)0)/p' "$here/wire.py" >"$of/hw/intc/trace.h"
    flags="-DPRELOADED -std=gnu11 -O2 -fPIC -fno-strict-aliasing -fwrapv -pthread -D_GNU_SOURCE -iquote $of -iquote . -I.
        -Iqapi -iquote ../qemu -iquote ../qemu/include -iquote ../qemu/tcg/i386 -isystem ../qemu/linux-headers"
    target="-DNEED_CPU_H -DCONFIG_TARGET=\"aarch64-softmmu-config-target.h\" -DCONFIG_DEVICES=\"aarch64-softmmu-config-devices.h\"
        -I../qemu/target/arm"
    for name in "$of"/*.c; do
        case $name in *watch_cpu.c | *written_pages.c) more=$target ;; *) more= ;; esac
        gcc $flags $more $(pkg-config --cflags glib-2.0 pixman-1) -c "$name" -o "${name%.c}.o"
    done
    gcc -shared -o "$1/device.so" "$of"/*.o $(sed -n 's/^REAL(\(its_[a-z_]*\));/-Wl,--wrap=\1/p' "$of/watch.c") "$2"
    cp "$here/preloaded" "$1/qemu-system-aarch64"
}

# What wire.py does to a tree of QEMU that it did nothing to yet, but for the device's own files.
patch_of() {
    local two part
    two=$(mktemp -d)
    mkdir "$two/a" "$two/b"
    for part in hw/intc hw/arm include/hw/arm include/hw/intc configs/devices; do
        (cd "$1" && cp -r --parents "$part" "$two/a" && cp -r --parents "$part" "$two/b")
    done
    python3 "$here/wire.py" "$two/b" "$2"
    (cd "$two" && diff -ru a b | grep -v '^Only in') || true
    rm -r "$two"
}

boot() {
    local its=
    [ "$2" = own ] || its=,its-device=arm-gicv3-its-bacciledru
    exec "$1/qemu-system-aarch64" -M "virt,gic-version=3,its=on$its" -cpu cortex-a57 -smp 4 -m 512 -nographic -nodefaults \
        -serial mon:stdio -kernel "$1/vmlinuz" -initrd "$1/initrd.gz" -append "console=ttyAMA0 panic=-1" \
        -blockdev driver=null-co,size=1073741824,read-zeroes=on,node-name=disk -device virtio-blk-pci,drive=disk,num-queues=4 \
        -netdev user,id=net -device virtio-net-pci,netdev=net,romfile= -device virtio-rng-pci
}

# Each machine of a scenario's records, as a script and a report that `its check` holds against the plain translator.
check() {
    local dir=$1 program=$2 record failed=0 input
    shift 2
    for record in $(cd "$dir" && ls ${*:-*.record}); do
        rm -rf "$dir/${record%.record}.scripts"
        python3 "$here/to_script.py" "$dir/$record" "$dir/${record%.record}.scripts"
        for input in "$dir/${record%.record}.scripts"/*.check; do
            [ -e "$input" ] || continue
            "$program" check <"$input" || failed=1
        done
    done
    return $failed
}

case "${1:-}" in
build) mkdir -p "$2" && build "$(realpath "$2")" "$(realpath "$3")" ;;
preload) mkdir -p "$2" && preload "$(realpath "$2")" "$(realpath "$3")" ;;
kernels) kernels "$(realpath "$2")" ;;
patch) patch_of "$(realpath "$2")" "$(realpath "$3")" ;;
boot) boot "$2" "$3" ;;
scenarios) exec python3 "$here/scenarios.py" "$(realpath "$2")" "${@:3}" ;;
check) check "$(realpath "$2")" "${@:3}" ;;
speed) exec python3 "$here/speed.py" "$(realpath "$2")" "${@:3}" ;;
*) sed -n '4,11s/^# //p' "$0" >&2 && exit 2 ;;
esac
