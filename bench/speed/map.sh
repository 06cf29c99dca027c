#!/bin/bash
# Times the loops over the block map, on lanes and plain, beside a copy of as many bytes, and taking
# every block of an empty map. Run by hand: builds a copy of the two crates in a folder that it removes.
#
# Prints for each loop the time for 1,048,576 words (4 MiB), bytes a second, and how the lanes stand to
# the plain loop and to the copy in this run, in percent. Each time is the least of 1,000 rounds, in which
# lanes and plain loop take turns; that of taking every block is the least of 100. clear_bit goes as fast
# as the words come in, with lanes or without.
set -eu
top=$(cd "$(dirname "$0")/../.." && pwd)
work=$(mktemp -d)
trap 'rm -rf "$work"' EXIT

mkdir -p "$work/crates/map_bench/src"
cp -r "$top/crates/sn_map" "$top/crates/sn_alloc" "$work/crates/"
printf 'sn_map:\nsn_alloc: sn_map\nmap_bench: sn_map sn_alloc\n' > "$work/crates.txt"
cp "$top/HANDLES" "$work/"
# The bench calls the loops themselves, which the crate keeps to itself.
sed -i 's/^mod \(lanes\|plain\);/pub mod \1;/' "$work/crates/sn_map/src/lib.rt"
sed -i 's/^pub(crate) fn/pub fn/' "$work/crates/sn_map/src/lanes.rt" "$work/crates/sn_map/src/plain.rt"

cp "$top/bench/speed/programs/measure_map/main.rt.txt" "$work/crates/map_bench/src/main.rt"

cd "$work/crates/map_bench"
if ! rt run > "$work/out.txt" 2> "$work/log.txt"; then
    grep -E 'error|no proof|help' "$work/log.txt" "$work/out.txt" | head -20
    exit 1
fi
cat "$work/out.txt"
