#!/bin/bash
# Times calls on files in the tree in memory. Run by hand.
#
# Prints what a write of 64 KiB that is read back costs beside two copies of as many bytes, and 200 of them beside 100;
# and 1,000 files of 100 bytes beside 500, 8,000 beside 4,000, and 10,000 opens and closes beside 5,000: linear is 2, and
# a little more where a file is looked up among more of them, or their blocks outgrow a cache of the processor. Each time
# is the least of ten runs, without that of a run that makes none. The C library keeps the memory that a run frees: else,
# once that is some megabytes, the next run would have the kernel hand it out again page by page.
set -eu
top=$(cd "$(dirname "$0")/../.." && pwd)
work=$(mktemp -d)
trap 'rm -rf "$work"' EXIT
"$top/bench/speed/program.py" measure_runs

MALLOC_TRIM_THRESHOLD_=4294967296 MALLOC_TOP_PAD_=268435456 MALLOC_MMAP_THRESHOLD_=33554432 \
    "$top/bench/speed/out/measure_runs" files > "$work/times"
awk '{ t[$1, $2] = $3 } END {
    once = (t["writes", 200] - t["writes", 0]) / 200
    copy = t["copies", 400] / 400
    printf "a write of 64 KiB, read back: %.1f us, %.2f of two copies; %.0f MB/s\n", once / 1000, once / (2 * copy), 131072000 / once
    printf "200 of them: %.2f of 100\n", (t["writes", 200] - t["writes", 0]) / (t["writes", 100] - t["writes", 0])
    files = t["files", 1000] - t["files", 0]
    printf "1,000 files of 100 bytes: %.1f ms, %.2f of 500; ", files / 1e6, files / (t["files", 500] - t["files", 0])
    printf "8,000: %.2f of 4,000\n", (t["files", 8000] - t["files", 0]) / (t["files", 4000] - t["files", 0])
    opens = t["opens", 10000] - t["opens", 0]
    printf "10,000 opens and closes: %.1f ms, %.2f of 5,000\n", opens / 1e6, opens / (t["opens", 5000] - t["opens", 0])
}' "$work/times"
