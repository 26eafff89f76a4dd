#!/usr/bin/env bash
# Runs all benches on a disk in memory, and on the disk of a folder, and writes the table of bench/README.md.
#
#     bench/all.sh [FOLDER]
#
# FOLDER is where the files of the second round are made (else the system's folder for such). Nothing else should run
# beside it.
set -eu -o pipefail
cd "$(dirname "$0")"
said=$(mktemp -d)
trap 'rm -rf "$said"' EXIT
disk=${1:-${TMPDIR:-/tmp}}
for place in memory disk; do
    folder=/dev/shm
    [ "$place" = memory ] || folder=$disk
    for bench in run tiles kits editions opening mapping_rows; do
        echo "$bench, $place"
        "./$bench.py" --folder "$folder" | tee -a "$said/$place"
    done
done
for bench in matrices check migrate page; do
    echo "$bench, memory"
    "./$bench.py" --folder /dev/shm
done
echo "scale, memory"
./scale.py --folder /dev/shm | tee "$said/scale"
./write_table.py "$said/memory" "$said/disk" "$said/scale"
