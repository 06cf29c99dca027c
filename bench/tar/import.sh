#!/bin/bash
# Archives of other programs, imported into an image and exported again: what GNU tar and Python's tarfile then find is the tree that the
# archive was made of, but for what was told on standard error. Run by hand, by root, where the temporary folder has ACLs.
#
#     bench/tar/import.sh [PROGRAM]
#
# Archives are made by GNU tar in its formats, with and without ACLs and with files with holes (-S), by bsdtar where it is there, and by
# tarfile. Each is imported twice, and the second time changes nothing. It prints a line for each archive; the status is 1 where a tree
# differs, and then what differs comes before it.
set -euo pipefail
top=$(cd "$(dirname "$0")/../.." && pwd)
program=${1-$top/snapfs}
[ "$(id -u)" = 0 ] || { echo "import.sh: by root alone"; exit 1; }
command -v setfacl >/dev/null || { echo "import.sh: there is no setfacl"; exit 1; }
work=$(mktemp -d)
trap 'rm -rf "$work"' EXIT
cd "$work"
export LC_ALL=C.UTF-8
tree() { python3 "$top/bench/tar/same_tree.py" "$@"; }
for kind in plain full holes; do tree make "$kind" "$kind"; done
printf '0 login 0 0 -\n0 mkdir /in 0700\n' >make.snap
differing=0

# into_image ARCHIVE: the exported archive in found.tar and the lines in told; status 1 where something was told, 0 where nothing was
into_image() {
    local status=0 again=0
    rm -f disk.img found.tar again.tar
    "$program" mkfs disk.img 8192 >/dev/null && "$program" run disk.img make.snap >/dev/null
    "$program" import disk.img /in <"$1" >out 2>told || status=$?
    "$program" export disk.img /in >found.tar
    "$program" import disk.img /in <"$1" >>out 2>told.again || again=$?
    "$program" export disk.img /in >again.tar
    [ "$("$program" check disk.img | cut -d ' ' -f 1)" = clean ] || echo "the image isn't sound"
    [ ! -s out ] || echo "something was written to standard output"
    cmp found.tar again.tar && cmp told told.again
    [ "$status" = "$([ -s told ] && echo 1 || echo 0)" ] && [ "$status" = "$again" ] || echo "status $status, then $again"
}

# same KIND ARCHIVE WHAT WORD..: a line for an archive of a tree, which is compared with these words
same() {
    local kind=$1 archive=$2 what=$3 wrong=0 said
    shift 3
    into_image "$archive" >problems 2>&1 || true
    rm -rf extracted && mkdir extracted && tar --acls -xpf found.tar --numeric-owner -C extracted >>problems 2>&1 || true
    said=$(tree compare "$kind" found.tar told "$@") || wrong=1
    tree compare "$kind" extracted told "$@" >>problems || wrong=1
    [ "$(wc -l <problems)" = 1 ] || wrong=1
    if [ "$wrong" = 1 ]; then
        printf '%s\n' "$said"
        cat problems
        differing=$((differing + 1))
        said=differs
    fi
    echo "$what: $said"
}

for style in ustar oldgnu gnu pax; do
    tar --format="$style" -cf made.tar -C plain .
    same plain made.tar "GNU tar, $style" --no-acls
done
for style in gnu pax; do
    tar --format="$style" -cf made.tar -C full .
    same full made.tar "GNU tar, $style, long names" --no-acls
done
tar --acls -cf made.tar -C full .
same full made.tar "GNU tar, --acls"
tar --acls --numeric-owner --format=pax -cf made.tar -C full .
same full made.tar "GNU tar, --acls --numeric-owner"
tar -cf made.tar -C holes .
same holes made.tar "GNU tar, files with holes as zeros"
tar -S --format=gnu -cf made.tar -C holes .
same holes made.tar "GNU tar, -S, gnu" --no-holes
for version in 0.0 0.1 1.0; do
    tar -S --format=pax --sparse-version="$version" -cf made.tar -C holes .
    same holes made.tar "GNU tar, -S, pax $version" --no-holes
done
if command -v bsdtar >/dev/null; then
    for style in ustar gnutar; do
        bsdtar --format="$style" -cf made.tar -C plain .
        same plain made.tar "bsdtar, $style" --no-acls
    done
    bsdtar --format=pax --acls -cf made.tar -C full .
    same full made.tar "bsdtar, pax with ACLs"
    LC_ALL=C bsdtar --format=pax --acls -cf made.tar -C full .
    same full made.tar "bsdtar, pax with ACLs, locale C"
    bsdtar --format=pax -cf made.tar -C holes .
    same holes made.tar "bsdtar, files with holes" --no-holes
fi
for style in pax gnu; do
    tree write full made.tar "$style"
    same full made.tar "tarfile, $style" --no-acls
done
tree write plain made.tar ustar
same plain made.tar "tarfile, ustar" --no-acls
[ "$differing" = 0 ]
