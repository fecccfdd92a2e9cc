#!/usr/bin/env bash
# Runs KVM's own ITS, in a Linux that QEMU gives a second level, beside `its`. README.md says what for.
#
# usage: run.sh fetch DIR                           downloads kernels of Debian: DIR/kernels/VERSION
#        run.sh build DIR                           builds the init that plays on KVM: DIR/init
#        run.sh play|restore|back|way DIR PROGRAM [OPTIONS]         a round of random scripts, on each kernel
#        run.sh differences DIR PROGRAM [OPTIONS]   the smallest script that shows each difference, on each kernel
#        run.sh threads DIR PROGRAM [OPTIONS]       rounds of calls that threads make beside each other
#        run.sh shrink PROGRAM CONSOLE SEED         such a round that fits nowhere, made smaller
#        run.sh plant PROGRAM CONSOLE..             such rounds with one answer changed in each
set -eu

here=$(dirname "$(realpath "$0")")

# Lists of packages of this folder's own, so that those of the host stay as they are: where, its suites, and the words
# of a package's name.
lists() {
    mkdir -p "$1/apt/lists/partial" "$1/apt/cache/archives/partial"
    for place in "debian bookworm" "debian-security bookworm-security" "debian-security trixie-security" \
        "debian trixie" "debian trixie-backports" "debian sid"; do
        echo "deb http://deb.debian.org/$place main"
    done >"$1/apt/sources.list"
    cat >"$1/apt/apt.conf" <<EOF
Dir::Etc::SourceList "$1/apt/sources.list";
Dir::Etc::SourceParts "/dev/null";
Dir::State::Lists "$1/apt/lists";
Dir::Cache "$1/apt/cache";
APT::Architecture "arm64";
APT::Architectures { "arm64"; };
APT::Sandbox::User "";
EOF
    export APT_CONFIG=$1/apt/apt.conf
    asked get -q update
}

# A command of apt, which reads these lists once.
asked() {
    "apt-$1" -o Dir::Cache::pkgcache=pkgcache.bin -o Dir::Cache::srcpkgcache=srcpkgcache.bin -o Acquire::Languages=none "${@:2}"
}

# The newest kernel of each line that the suites' linux-image-cloud-arm64 depend on.
newest() {
    asked cache show linux-image-cloud-arm64 | sed -n 's/^Depends:.*\(linux-image-[0-9][^ ,]*\).*/\1/p' | sort -uV |
        awk -F'[-.+]' '{ last[$3 "." $4] = $0 } END { for (line in last) print last[line] }' | sort -V
}

# The packages that have the kernels themselves. From 7.0 on linux-image depends on linux-binary, and is empty.
holders() {
    local there package binary
    there=$(asked cache pkgnames linux-binary)
    for package in "$@"; do
        binary=${package/linux-image/linux-binary}
        if grep -qxF "$binary" <<<"$there"; then echo "$binary"; else echo "$package"; fi
    done
}

# PACKAGES may name others than the newest.
fetch() {
    local dir=$1 packages package file version
    lists "$dir"
    mkdir -p "$dir/kernels" "$dir/packages"
    mapfile -t packages < <(holders ${PACKAGES:-$(newest)})
    (cd "$dir/packages" && asked get -q download "${packages[@]}")
    for package in "${packages[@]}"; do
        file=$(ls "$dir/packages/${package}"_*.deb)
        version=$(dpkg-deb -f "$file" Version)
        dpkg -x "$file" "$dir/packages/$package"
        cp "$(find "$dir/packages/$package" -name 'vmlinuz*' -type f)" "$dir/kernels/${version%%-*}"
    done
    ls "$dir/kernels"
}

build() {
    aarch64-linux-gnu-gcc -O1 -Wall -Wextra -static -o "$1/init" "$here"/{machine,player,threads}.c "$here/guest.S"
}

case "${1:-}" in
fetch) mkdir -p "$2" && fetch "$(realpath "$2")" ;;
build) mkdir -p "$2" && build "$(realpath "$2")" ;;
play | restore | back | way | differences | threads) exec python3 "$here/$1.py" "$(realpath "$2")" "$(realpath "$3")" "${@:4}" ;;
shrink | plant) exec python3 "$here/$1.py" "$(realpath "$2")" "${@:3}" ;;
*) sed -n '4,11s/^# //p' "$0" >&2 && exit 2 ;;
esac
