#!/usr/bin/env bash
# Prints the time and the peak memory of `its run` on scripts that grow: with their calls, and with what is mapped.
#
# signals      250,000, 500,000 and 1,000,000 signals
# mixed        lines of every call but `save`, `rread` and `rwrite`, a quarter, a half and the whole of 16 MiB
# events       a restore of 16,384, 32,768 and 65,536 events of one device, and eight migrations
# devices      the same of as many devices
# overlap      the same devices, of which the last two tables overlap, and one save that is refused
# pokes        100,000, 200,000 and 400,000 writes of guest memory; `pokes-track` with a second memory
# map-KIND-ORDER  16,000, 32,000 and 64,000 commands that map devices, or events of one device, in an order
#
# The gate (.ci/run) leaves the program as crates/its_cli/out/its_cli.
# Where a file FIGURES is named, its rows are written anew; plot.py draws them.
#
# The calls of the machine that threads share are measured one by one by measure_ports.py.
#
# usage: bench/run.sh PROGRAM [FIGURES]
set -euo pipefail

if [ $# -lt 1 ] || [ $# -gt 2 ]; then
    echo "usage: bench/run.sh PROGRAM [FIGURES]" >&2
    exit 2
fi
program=$(realpath "$1")
here=$(cd "$(dirname "$0")" && pwd)
folder=$(mktemp -d)
trap 'rm -rf "$folder"' EXIT
figures=${2:-$folder/figures}
echo "kind,size,calls,seconds,mib" >"$figures"

# measure KIND SIZE MAKER WORD..: the script that the maker writes, given the words
measure() {
    local kind=$1 size=$2 maker=$3
    shift 3
    python3 "$here/$maker" "$@" >"$folder/script"
    python3 "$here/measure.py" "$program" "$folder/script" "$folder/report" "$figures" "$kind" "$size"
}

echo "signals"
for signals in 250000 500000 1000000; do
    measure signals "$signals" make_signals.py "$signals"
done
echo "mixed lines"
for bytes in 4194304 8388608 16777216; do
    measure mixed "$bytes" make_mixed.py "$bytes"
done
echo "writes of memory"
for pokes in 100000 200000 400000; do
    measure pokes "$pokes" make_pokes.py "$pokes"
    measure pokes-track "$pokes" make_pokes.py "$pokes" track
done
for kind in events devices; do
    echo "restore and eight migrations: $kind"
    for count in 16384 32768 65536; do
        measure "$kind" "$count" make_migrations.py "$kind" "$count" 8
    done
done
echo "restore and a save that is refused"
for count in 16384 32768 65536; do
    measure overlap "$count" make_migrations.py overlap "$count" 1
done
for kind in devices events; do
    for order in rising falling scattered; do
        echo "map $kind, $order"
        for count in 16000 32000 64000; do
            measure "map-$kind-$order" "$count" make_maps.py "$kind" "$order" "$count"
        done
    done
done
