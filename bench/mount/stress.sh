#!/bin/bash
# Lets stress-ng use a mount in each of its ways with files, two workers at once, each way for some seconds, and checks the image after.
#
#     bench/mount/stress.sh [PROGRAM [SECONDS]]
#
# Run by hand as root where there is /dev/fuse and stress-ng; takes a few minutes with the 4 SECONDS that are taken without the word. A way that
# finds something wrong is printed with its first lines. One that asks for what isn't served passes itself over (docs/snapfs.8), and is counted.
# Left out are `access`, which wants user 0 not to execute what nobody may, and `filename`, whose names have 255 bytes that aren't printable: here
# such a byte takes three of a name.
# (its function is called by the words of a case)
# shellcheck disable=SC2317
# shellcheck source-path=SCRIPTDIR source=shared.sh
. "$(dirname "$0")/shared.sh"
span=${2:-4}
ways="chdir chmod chown close copy-file dentry dir dirdeep dirmany dup fallocate fcntl fiemap file-ioctl flock fpunch fstat getdent hdd inode-flags
io iomix link lockf lockofd metamix mmap open readahead rename revio seek sendfile splice symlink sync-file touch unlink utime verity xattr"

if ! command -v stress-ng >/dev/null; then
    echo "stress-ng isn't installed"
    exit 1
fi

stresses() {
    stress-ng "--$1" 2 --temp-path "$dir" --timeout "$span" --verify --seed 1 >"$work/told" 2>&1 || {
        cat "$work/told" && grep -q 'skipp' "$work/told" && ! grep -q 'fail:' "$work/told"
    }
}
# What a way made is gone when it ends.
leaves_nothing() { [ -z "$(ls -A "$dir")" ]; }

"$snapfs" mkfs "$image" 262144 >/dev/null && "$snapfs" mount "$image" "$dir" || exit 1
skipped=0
for way in $ways; do
    stress-ng "--$way" 0 --dry-run >/dev/null 2>&1 || continue
    holds "$way" stresses "$way"
    ! grep -q skipp "$work/out" || skipped=$((skipped + 1))
    holds "after $way" leaves_nothing
done
holds unmount "$snapfs" unmount "$dir"
case_of check 0 "clean $("$snapfs" check "$image" | cut -d ' ' -f 2)" "$snapfs" check "$image"
echo "passed over: $skipped"
finish
