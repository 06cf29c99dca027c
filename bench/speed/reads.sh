#!/bin/bash
# Times calls that only read, over a device in memory, where each reads what it needs of the root through the cache, beside the
# same calls in the tree in memory. Run by hand.
#
# Prints what a stat of a path of eight names costs, a seek, and a read of 64 KiB, whose blocks are in the cache; each beside the
# tree in memory, and the read beside two copies of as many blocks, and of as many bytes in one piece, which are kept as a run
# keeps its replies. Each time is the least of twenty runs, without that of a run that makes none. Before each read comes a seek,
# whose time is taken off. The C library keeps the memory that a run frees, as in `bench/speed/files.sh`.
set -eu
top=$(cd "$(dirname "$0")/../.." && pwd)
work=$(mktemp -d)
trap 'rm -rf "$work"' EXIT
"$top/bench/speed/program.py" measure_runs

MALLOC_TRIM_THRESHOLD_=4294967296 MALLOC_TOP_PAD_=268435456 MALLOC_MMAP_THRESHOLD_=33554432 \
    "$top/bench/speed/out/measure_runs" reads > "$work/times"
awk '{ device[$1, $2] = $3; memory[$1, $2] = $4 } END {
    walk = (device["walks", 1000] - device["walks", 0]) / 1000
    plain = (memory["walks", 1000] - memory["walks", 0]) / 1000
    printf "a walk of eight names: %.2f us, %.1f of one in the tree in memory (%.2f us)\n", walk / 1000, walk / plain, plain / 1000
    seek = (device["seeks", 1000] - device["seeks", 0]) / 1000
    plain_seek = (memory["seeks", 1000] - memory["seeks", 0]) / 1000
    printf "a seek: %.2f us, %.1f of one in the tree in memory (%.2f us)\n", seek / 1000, seek / plain_seek, plain_seek / 1000
    read = (device["reads", 100] - device["reads", 0]) / 100 - seek
    plain = (memory["reads", 100] - memory["reads", 0]) / 100 - plain_seek
    blocks = device["copies", 100] / 100
    whole = memory["copies", 100] / 100
    printf "a read of 64 KiB: %.1f us, %.2f of two copies of its blocks, %.2f of two in one piece, %.1f of one in the tree in memory (%.1f us)\n", read / 1000, read / (2 * blocks), read / (2 * whole), read / plain, plain / 1000
}' "$work/times"
