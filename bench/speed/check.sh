#!/bin/bash
# Times the check of an image of 65,536 blocks (256 MiB) beside `e2fsck -fn` of an ext4 image of the same size that holds the
# same files. Run by hand, from any folder: it wants python3, and mkfs.ext4 and e2fsck, which Debian has in e2fsprogs. It
# builds the program where it isn't up to date, or takes the one that is given, and works in a folder that it removes, which
# takes 200 MB.
#
# usage: bench/speed/check.sh [PROGRAM]
#
# The files are 5,000 of 3,000 bytes in directories of a hundred names each, and 40 of 1 MiB; an image without any stands
# beside. Both images are written from outside, ours by made_image.py and so by docs/FORMAT.md alone, the other by
# mkfs.ext4, and both programs have to find them clean. They read from memory, since the images were just written, and
# take turns; each time is the least of nine. They don't do the same: e2fsck tests checksums, which our images lack.
set -eu
top=$(cd "$(dirname "$0")/../.." && pwd)
program=${1:-$top/crates/sn_bin/out/sn_bin}
blocks=65536
rounds=9
for tool in mkfs.ext4 e2fsck; do
    if ! command -v "$tool" > /dev/null; then echo "$tool isn't there"; exit 1; fi
done
work=$(mktemp -d)
trap 'rm -rf "$work"' EXIT
if [ $# -eq 0 ]; then "$top/snapfs" --build; fi

python3 - "$top/bench/plain" "$work" "$blocks" <<'P'
import sys
from pathlib import Path

sys.dont_write_bytecode = True
sys.path.insert(0, sys.argv[1])
from made_image import Tree, write_image

work, blocks = Path(sys.argv[2]), int(sys.argv[3])
tree, folder = Tree(), work / "files"


def add(directory, path, data):
    tree.add_file(directory, path.name, data)
    path.write_bytes(data)


folder.mkdir()
for first in range(0, 5000, 100):
    name = f"d{first // 100:04}"
    (folder / name).mkdir()
    directory = tree.add_directory(2, name)
    for number in range(first, first + 100):
        add(directory, folder / name / f"f{number:06}", (b"%08d" % number) * 375)
for number in range(40):
    add(2, folder / f"large{number:02}", (b"%08d" % number) * 131072)
write_image(work / "files.snapfs", tree, blocks)
write_image(work / "empty.snapfs", Tree(), blocks)
P
mkdir "$work/none"
mkfs.ext4 -q -F -b 4096 -d "$work/files" "$work/files.ext4" "$blocks" > "$work/made"
mkfs.ext4 -q -F -b 4096 -d "$work/none" "$work/empty.ext4" "$blocks" > "$work/made"

# micros COMMAND..: how long it takes, which has to succeed
micros() {
    local begun=${EPOCHREALTIME/./}
    if ! "$@" > "$work/told" 2>&1; then
        cat "$work/told" >&2
        exit 1
    fi
    echo $((${EPOCHREALTIME/./} - begun))
}

printf '%-8s %12s %12s %8s\n' image 'snapfs ms' 'e2fsck ms' ratio
for image in empty files; do
    ours=999999999 theirs=999999999
    for ((round = 0; round < rounds; round++)); do
        taken=$(micros "$program" check "$work/$image.snapfs")
        ours=$((taken < ours ? taken : ours))
        taken=$(micros e2fsck -fn "$work/$image.ext4")
        theirs=$((taken < theirs ? taken : theirs))
    done
    awk -v image="$image" -v ours="$ours" -v theirs="$theirs" \
        'BEGIN { printf "%-8s %12.1f %12.1f %8.2f\n", image, ours / 1000, theirs / 1000, ours / theirs }'
done
