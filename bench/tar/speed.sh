#!/bin/bash
# Times exports of an image of 65,536 blocks (256 MiB) beside `cat` of the bytes of its file that are there. Run by hand, from any
# folder: it wants python3. It builds the program where it isn't up to date, or takes the one that is given, and works in a folder
# that it removes, which takes 200 MB.
#
# usage: bench/tar/speed.sh [PROGRAM]
#
# The image is written from outside, by made_image.py, and holds either 40 files of 4 MiB, or those and 5,000 of 3,000 bytes in
# directories of a hundred names each. Both read from memory, since the images were just written, write to a pipe that is read by
# `cat`, and take turns; each time is the least of nine. It ends with status 1 where an export of the large files takes more than
# three times as long.
set -eu
top=$(cd "$(dirname "$0")/../.." && pwd)
program=${1:-$top/crates/sn_bin/out/sn_bin}
rounds=9
work=$(mktemp -d)
trap 'rm -rf "$work"' EXIT
if [ $# -eq 0 ]; then "$top/snapfs" --build; fi

python3 - "$top/bench/plain" "$work" <<'P'
import sys
from pathlib import Path

sys.dont_write_bytecode = True
sys.path.insert(0, sys.argv[1])
from made_image import Tree, write_image

work = Path(sys.argv[2])


def large():
    tree = Tree()
    for number in range(40):
        tree.add_file(2, f"large{number:02}", (b"%08d" % number) * 524288)
    return tree


def mixed():
    tree = large()
    for first in range(0, 5000, 100):
        directory = tree.add_directory(2, f"d{first // 100:04}")
        for number in range(first, first + 100):
            tree.add_file(directory, f"f{number:06}", (b"%08d" % number) * 375)
    return tree


write_image(work / "large.img", large(), 65536)
write_image(work / "mixed.img", mixed(), 65536)
P

# micros COMMAND..: how long it takes, which has to succeed, until all that it writes is read
micros() {
    local begun=${EPOCHREALTIME/./}
    "$@" | cat > /dev/null
    echo $((${EPOCHREALTIME/./} - begun))
}
set -o pipefail

# parts IMAGE: the bytes of the file that are there
parts() { head -c "$(($(stat -c '%b' "$1") * 512))" "$1"; }

status=0
printf '%-8s %12s %12s %8s\n' image 'export ms' 'cat ms' ratio
for image in large mixed; do
    ours=999999999 theirs=999999999
    "$program" export "$work/$image.img" / > "$work/archive"
    tar -tf "$work/archive" > "$work/names"
    for ((round = 0; round < rounds; round++)); do
        taken=$(micros "$program" export "$work/$image.img" /)
        ours=$((taken < ours ? taken : ours))
        taken=$(micros parts "$work/$image.img")
        theirs=$((taken < theirs ? taken : theirs))
    done
    awk -v image="$image" -v ours="$ours" -v theirs="$theirs" \
        'BEGIN { printf "%-8s %12.1f %12.1f %8.2f\n", image, ours / 1000, theirs / 1000, ours / theirs }'
    if [ "$image" = large ] && [ "$ours" -gt $((3 * theirs)) ]; then status=1; fi
done
exit "$status"
