#!/bin/bash
# Times calls between consistency points, and the points, over devices in memory, by runs of the program `measure_runs`. Run by
# hand; it takes some seconds and four gigabytes of memory.
#
# Prints what a call costs that makes or takes away a directory, where no point comes between, in trees of 100, 10,000 and
# 60,000 directories, by a hundred of them in each; and what a point costs behind 1, 10 and 100 such calls, in these trees,
# and on disks of 4,096, 16,384 and 65,536 blocks. Each time is the least of twenty rounds of one run. A tree of 100 is in one
# directory of the root, the others in a hundred and in six hundred: the root's names are looked up for each call, and not read
# by a point. Then what a run pauses for one event while a point of more than 1,000 blocks is made in steps, with a call behind
# each sixteenth of them, on a disk of 1,048,576 blocks, whose map has so many: its first step, which builds it, the longest
# further step and the longest of the calls, each beside the whole point in one event.
set -eu
top=$(cd "$(dirname "$0")/../.." && pwd)
work=$(mktemp -d)
trap 'rm -rf "$work"' EXIT
"$top/bench/speed/program.py" measure_runs

"$top/bench/speed/out/measure_runs" points > "$work/times"
awk '
{ call[$1, $2, $3] = $4 / $3; point[$1, $2, $3] = $5 }
END {
    large = 65536
    few = call[100, large, 100]
    printf "a call between points: %.2f us among 100 directories, %.2f of it among 10,000, %.2f among 60,000\n", few / 1000, call[10000, large, 100] / few, call[60000, large, 100] / few
    split("4096 16384 65536", blocks)
    for (i = 1; i <= 3; i++) {
        one = point[100, blocks[i], 1]
        printf "a point on %d blocks: %.1f us behind one change, %.2f of that behind 10, %.2f behind 100\n", blocks[i], one / 1000, point[100, blocks[i], 10] / one, point[100, blocks[i], 100] / one
    }
    printf "behind one change on 16,384 blocks %.2f, on 65,536 %.2f of one on 4,096\n", point[100, 16384, 1] / point[100, 4096, 1], point[100, 65536, 1] / point[100, 4096, 1]
    split("100 10000 60000", counts)
    for (i = 2; i <= 3; i++)
        printf "among %d directories %.2f of one among 100 behind one change, %.2f behind 100\n", counts[i], point[counts[i], large, 1] / point[100, large, 1], point[counts[i], large, 100] / point[100, large, 100]
}' "$work/times"

"$top/bench/speed/out/measure_runs" pauses > "$work/pauses"
awk '
{
    printf "a point of %d steps: in one event %.1f us; its first step %.3f of that, the longest further step %.4f, the longest call between %.4f\n", $1, $2 / 1000, $3 / $2, $4 / $2, $5 / $2
}' "$work/pauses"
