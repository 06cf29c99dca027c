#!/bin/bash
# Times builds of trees on a device in memory, by runs of the program `measure_builds`. Run by hand; the memory wants gcc.
#
# Prints the time of 254 more names in a directory of 100 and of 65,000 names, and of one dirty block of files of 1,000 and
# of 100,000 blocks, on disks of the same size. Of each the time of a build of nothing is apart, which copies the map of
# that disk. A directory is gone through twice, so its times are also told for each of its blocks. And the most
# memory that is held at a time while the block of 100,000 is built, over that of a run that builds nothing. Each time
# is the least of twelve runs of 60 turns, and that of the block is of a build whose blocks are in the cache.
set -eu
top=$(cd "$(dirname "$0")/../.." && pwd)
. "$top/bench/speed/peak.sh"
work=$(mktemp -d)
trap 'rm -rf "$work"' EXIT
"$top/bench/speed/program.py" measure_builds
builds=$top/bench/speed/out/measure_builds

for _ in 1 2 3 4 5 6 7 8 9 10 11 12; do "$builds" time; done > "$work/times"
awk '
function least(one, other) { return one == "" || other < one ? other : one }
{ whole[$1, $2] = least(whole[$1, $2], $3); map[$1, $2] = least(map[$1, $2], $4); rest[$1, $2] = whole[$1, $2] - map[$1, $2]; blocks[$2] = $5 }
function told(what, many, few) {
    printf "%s: %.1f us, and the map %.1f us; ", what, rest[many] / 1000, map[many] / 1000
    printf "%.2f of that in %s (%.1f us, and the map %.1f us)\n", rest[many] / rest[few], few_name, rest[few] / 1000, map[few] / 1000
}
END {
    few_name = "100"
    told("254 more names in a directory of 65,000", "names" SUBSEP 65000, "names" SUBSEP 100)
    more = rest["names", 65000] - rest["names", 100]
    printf "for each of the %d blocks that it has more: %.2f us\n", blocks[65000] - blocks[100], more / 1000 / (blocks[65000] - blocks[100])
    few_name = "1,000"
    told("one dirty block in 100,000", "block" SUBSEP 100000, "block" SUBSEP 1000)
}' "$work/times"

peak_into "$work"
block=$(peak "$builds" once block)
nothing=$(peak "$builds" once nothing)
echo "memory of that build, with its overlay and a copy of the map: $((block - nothing)) bytes at most"
