#!/bin/bash
# Times the calls that make a snapshot, bring one back and let one go, on an image of 65,536 blocks (256 MiB) with 100 files of 3,000 bytes and
# on one with 5,000, and the check of the larger one without snapshots and with twenty of the same tree. A snapshot is brought back
# on an image with 5,000 files of 30,000 bytes too, since none of their bytes is read for that. Run by hand, from any folder: it
# wants python3. It builds the program where it isn't up to date, or takes the one that is given, and works in a folder in memory
# where there is /dev/shm, which takes 1,050 MB.
#
# usage: bench/speed/snapshots.sh [PROGRAM]
#
# A call costs what a run with 500 pairs of them, or 50 that bring a snapshot back, takes more than one with none, which mounts the
# same image; each time is the least of 15 runs. The C library keeps the memory that a run frees, since whether it hands a map back to the system and gets it anew
# is half of the time of a call.
set -eu
export MALLOC_TRIM_THRESHOLD_=4294967296 MALLOC_TOP_PAD_=268435456 MALLOC_MMAP_THRESHOLD_=33554432
top=$(cd "$(dirname "$0")/../.." && pwd)
program=${1:-$top/crates/sn_bin/out/sn_bin}
rounds=15
pairs=500
restores=50
place=/tmp
if [ -w /dev/shm ]; then place=/dev/shm; fi
work=$(mktemp -d -p "$place")
trap 'rm -rf "$work"' EXIT
if [ $# -eq 0 ]; then "$top/snapfs" --build; fi

python3 - "$top/bench/plain" "$work" <<'P'
import sys
from pathlib import Path

sys.dont_write_bytecode = True
sys.path.insert(0, sys.argv[1])
from made_image import Tree, write_image

work = Path(sys.argv[2])
for name, count, length in (("100", 100, 3000), ("5000", 5000, 3000), ("long", 5000, 30_000)):
    tree = Tree()
    for first in range(0, count, 100):
        directory = tree.add_directory(2, f"d{first // 100:04}")
        for number in range(first, first + 100):
            tree.add_file(directory, f"f{number:06}", (b"%08d" % number) * (length // 8))
    write_image(work / f"{name}.img", tree, 65536)
P

{
    echo "0 login 0 0 -"
    for i in $(seq $pairs); do printf '0 snap-create s\n0 snap-delete s\n'; done
} > "$work/pairs"
echo "0 login 0 0 -" > "$work/none"
printf '0 login 0 0 -\n0 snap-create s\n0 snap-delete s\n' > "$work/kept"
{
    printf '0 login 0 0 -\n0 snap-create s\n'
    for i in $(seq $restores); do echo "0 snap-restore s"; done
    echo "0 snap-delete s"
} > "$work/restores"
{
    echo "0 login 0 0 -"
    for i in $(seq 20); do echo "0 snap-create s$i"; done
} > "$work/twenty"

# The time of a command, in microseconds.
timed() {
    local begun
    begun=$(date +%s%N)
    "$@" > "$work/said"
    echo $((($(date +%s%N) - begun) / 1000))
}

# Each line is a key and a time; the least time of each key, in milliseconds.
least() {
    awk '!($1 in best) || $2 < best[$1] { best[$1] = $2 } END { for (key in best) print key, best[key] / 1000 }'
}

# Runs on all images take turns, so that what else the machine does meets all alike.
for round in $(seq $rounds); do
    for image in 100 5000 long; do
        for script in none pairs kept restores; do
            took=$(timed "$program" run "$work/$image.img" "$work/$script")
            if grep -qv '^ok$' "$work/said"; then echo "a call was refused" >&2; exit 1; fi
            echo "$script-$image $took"
        done
    done
done | least > "$work/calls"
awk -v calls=$((2 * pairs)) -v restores=$restores '{ took[$1] = $2 } END {
    few = (took["pairs-100"] - took["none-100"]) / calls
    many = (took["pairs-5000"] - took["none-5000"]) / calls
    printf "a snapshot made or let go: %.3f ms with 100 files, %.3f with 5,000, %.2f times as much\n", few, many, many / few
    few = (took["restores-100"] - took["kept-100"]) / restores
    many = (took["restores-5000"] - took["kept-5000"]) / restores
    long = (took["restores-long"] - took["kept-long"]) / restores
    printf "a snapshot brought back: %.3f ms with 100 files, %.3f with 5,000, %.2f times as much\n", few, many, many / few
    printf "with 5,000 of 30,000 bytes: %.3f ms, %.2f times as much as with as many of 3,000, and %.2f times what a run without a call takes\n",
        long, long / many, long / took["none-long"]
}' "$work/calls"

cp "$work/5000.img" "$work/kept.img"
timed "$program" run "$work/kept.img" "$work/twenty" > /dev/null
if grep -qv '^ok$' "$work/said"; then echo "a call was refused"; exit 1; fi
for round in $(seq $rounds); do
    for image in 5000 kept; do echo "$image $(timed "$program" check "$work/$image.img")"; done
done | least > "$work/checks"
awk '{ took[$1] = $2 } END {
    printf "a check: %.1f ms without snapshots, %.1f with twenty of the same tree, %.2f times as much\n", took["5000"], took["kept"], took["kept"] / took["5000"]
}' "$work/checks"
