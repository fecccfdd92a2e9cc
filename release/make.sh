#!/usr/bin/env bash
# Packs a release into two archives, for x86_64 and for aarch64. Each has both libraries with their headers, the
# monitors, pages, examples, manual pages, the page that runs scripts, what it was made from, and the checksums
# of all; that for x86_64 has the program too. The same files make the same archives, byte for byte.
#
# usage: release/make.sh LIBRARY_AARCH64 SHARED_AARCH64 LOG..
#
# LIBRARY_AARCH64 is the libits_c.a and SHARED_AARCH64 the libits_shared.a that `rt lib --target
# aarch64-unknown-linux-gnu` made. The logs are what the runs printed that proved this commit: `.ci/run`, or `rt ci
# its_cli its_c its_shared its_web`, which proves and tries those and all that they stand on, and five `rt lib`: two of
# its_c, two of its_shared, and that of its_web, which web/build.sh makes. Each crate that is linked has to be in one,
# and each of its edits has to be told as refused in one (proved.py); that they are of this commit is for the caller to
# know. The program is what the gate leaves in crates/its_cli/out, the libraries for x86_64 what `rt lib` leaves in
# crates/its_c/out and crates/its_shared/out, the page what web/build.sh makes; PROGRAM, LIBRARY, SHARED and PAGE in
# the environment name other files. The version is the first of CHANGELOG.md. The archives are
# FOLDER/bacciledru-VERSION-PROCESSOR.tar.gz, in release/out without a FOLDER.
set -euo pipefail
export LC_ALL=C TZ=UTC
umask 022

fail() {
    echo "release/make.sh: $1" >&2
    exit 1
}

if [ $# -lt 3 ]; then
    echo "usage: release/make.sh LIBRARY_AARCH64 SHARED_AARCH64 LOG.." >&2
    exit 2
fi
library_aarch64=$(realpath -m "$1")
shared_aarch64=$(realpath -m "$2")
mapfile -t logs < <(realpath -m -- "${@:3}")
folder=$(realpath -m "${FOLDER:-$(dirname "$0")/out}")
program=$(realpath -m "${PROGRAM:-$(dirname "$0")/../crates/its_cli/out/its_cli}")
library_x86_64=$(realpath -m "${LIBRARY:-$(dirname "$0")/../crates/its_c/out/libits_c.a}")
shared_x86_64=$(realpath -m "${SHARED:-$(dirname "$0")/../crates/its_shared/out/libits_shared.a}")
page=$(realpath -m "${PAGE:-$(dirname "$0")/../web/index.html}")
cd "$(dirname "$0")/.."

for file in "$program" "$library_x86_64" "$library_aarch64" "$shared_x86_64" "$shared_aarch64" "$page" "${logs[@]}"; do
    [ -f "$file" ] || fail "there is no $file"
done
[ -z "$(git status --porcelain)" ] || fail "the clone has changes that aren't committed"
version=$(sed -n 's/^## \([0-9][0-9]*\.[0-9][0-9]*\.[0-9][0-9]*\).*/\1/p' CHANGELOG.md | head -n 1)
[ -n "$version" ] || fail "CHANGELOG.md has no version"
kit=$(rt version)
kit_folder=$(dirname "$(rt doc)")
commit=$(git rev-parse HEAD)
[ -z "$(printf '%s\n' "${logs[@]##*/}" | sort | uniq -d)" ] || fail "two logs have one name"
export PYTHONDONTWRITEBYTECODE=1
runs=$(python3 release/proved.py "$kit_folder" its_cli its_c@x86_64-unknown-linux-gnu \
    its_c@aarch64-unknown-linux-gnu its_shared@x86_64-unknown-linux-gnu its_shared@aarch64-unknown-linux-gnu \
    its_web@x86_64-unknown-linux-gnu -- "${logs[@]}") ||
    fail "not all was proved"
said=$("$program" version | head -n 2)
[ "$said" = "its $version (Bacciledru)
for $kit" ] || fail "the program says of itself: $said"

work=$(mktemp -d)
trap 'rm -rf "$work"' EXIT

# A library of a processor is for it, and calls nothing but what it may.
checked_library() {
    readelf -h "$1" | grep -q "Machine: *$2\$" || fail "$1 isn't for $2"
    examples/monitor/check_symbols.sh "$1" include/its.h >&2 || fail "$1 isn't what a monitor is told of it"
}

# Copies files of the repository to their places in a folder.
copied() {
    local to=$1 file
    shift
    git ls-files -- "$@" | while read -r file; do
        install -D -m "$(git ls-files -s -- "$file" | cut -c4-6)" "$file" "$to/$file"
    done
}

# What both archives have: the folder, the processor, the libraries, the packages, and what is linked besides, as
# `materials.py` takes it.
filled() {
    local to=$1 processor=$2 library=$3 shared=$4 packages=$5
    shift 5
    mkdir -p "$to"
    install -m 644 "$library" "$to/libits_c.a"
    install -m 644 "$shared" "$to/libits_shared.a"
    install -m 644 "$page" "$to/page.html"
    install -D -m 644 -t "$to/logs" "${logs[@]}"
    copied "$to" include LICENSE-MIT LICENSE-APACHE CHANGELOG.md examples/README.md examples/compare.sh \
        'examples/*.its' 'examples/*.report' examples/variations examples/monitor \
        docs/LIBRARY.md docs/FORMATS.md docs/TUTORIAL.md docs/GLOSSARY.md docs/PROMISES.md docs/PEERS.md
    (cd "$to/examples/monitor" && rm README.md run.sh check_header.py)
    printf 'bacciledru %s\nprocessor %s\ncommit %s\nkit %s\n%s\n' \
        "$version" "$processor" "$commit" "$kit" "$runs" >"$to/VERSION"
    python3 release/materials.py "$kit_folder" "$to/licenses" "$@" its_c=libits_c.a its_shared=libits_shared.a \
        its_web=page.html >"$to/MATERIALS"
    python3 release/pages.py "$to" "$processor" "version=$version" "target=$processor" "packages=$packages" \
        "kit=$kit" "commit=$commit" "date=$(git log -1 --format=%cd --date=format-local:%Y-%m-%d)"
}

# Packs a folder of the work, with its checksums.
packed() {
    local name=$1
    (cd "$work/$name" && find . -type f -printf '%P\n' | sort | xargs -d '\n' sha256sum -- >../SHA256SUMS && mv ../SHA256SUMS .)
    chmod -R u=rwX,go=rX "$work/$name"
    tar --format=ustar --sort=name --owner=0 --group=0 --numeric-owner --mtime="@$(git log -1 --format=%ct)" \
        -C "$work" -cf "$work/archive.tar" "$name"
    gzip -9n <"$work/archive.tar" >"$folder/$name.tar.gz"
    (cd "$folder" && sha256sum "$name.tar.gz")
}

mkdir -p "$folder"

checked_library "$library_x86_64" "Advanced Micro Devices X86-64"
checked_library "$shared_x86_64" "Advanced Micro Devices X86-64"
name=bacciledru-$version-x86_64
install -D -m 755 "$program" "$work/$name/its"
filled "$work/$name" x86_64 "$library_x86_64" "$shared_x86_64" "gcc, libc6-dev and man-db" its_cli=its
(cd "$kit_folder/c" && sha256sum libos_c.a liblibc_c.a) |
    while read -r sum file; do printf '%-18s%-12s%-44s%s\n' "$file" kit its "$sum"; done >>"$work/$name/MATERIALS"
readelf -d "$program" | sed -nE 's/.*\(NEEDED\).*\[(.*)\].*/\1/p' |
    while read -r file; do printf '%-18s%-12s%-44s%s\n' "$file" system its "found as it starts"; done >>"$work/$name/MATERIALS"
packed "$name"

checked_library "$library_aarch64" AArch64
checked_library "$shared_aarch64" AArch64
name=bacciledru-$version-aarch64
copied "$work/$name" examples/hypervisor
filled "$work/$name" aarch64 "$library_aarch64" "$shared_aarch64" \
    "gcc-aarch64-linux-gnu, libc6-dev-arm64-cross, qemu-user-static, qemu-system-arm and man-db"
packed "$name"
