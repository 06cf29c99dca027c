#!/bin/bash
# Times calls on names in the tree in memory. Run by hand.
#
# Prints what a rename, and what each name of a readdir, costs in a directory of 10,000 names, and how often what it
# costs in one of 100. Each time is the least of ten runs, without that of a run that makes the directory alone.
set -eu
top=$(cd "$(dirname "$0")/../.." && pwd)
work=$(mktemp -d)
trap 'rm -rf "$work"' EXIT
"$top/bench/speed/program.py" measure_runs

"$top/bench/speed/out/measure_runs" names > "$work/times"
awk '{ t[$1, $2] = $3 } END {
    renamed = t["renamed", 10000] - t["made", 10000]
    printf "a rename: %.2f us, %.2f of one among 100 names\n", renamed / 1e5, renamed / (t["renamed", 100] - t["made", 100])
    listed = t["listed", 10000] - t["made", 10000]
    printf "a name of a readdir: %.1f ns, %.2f of one of 100 names\n", listed / 1e5, listed / (t["listed", 100] - t["made", 100])
}' "$work/times"
