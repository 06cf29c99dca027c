#!/bin/bash
# How long `access` takes beside `stat`: on the ACL of three entries that a mode says, and on one of 36 entries for a
# caller of 33 groups, the last of which alone has an entry. Run by hand, from any folder: builds the program where it
# isn't up to date, and works in a folder that it removes.
#
# Prints for half a million and for a million calls of one script the least time of five runs, what a call takes, how
# many times that is what a `stat` takes in this run, and how many times as long the million takes as the half.
set -eu
top=$(cd "$(dirname "$0")/../.." && pwd)
program=$top/crates/sn_bin/out/sn_bin
work=$(mktemp -d)
trap 'rm -rf "$work"' EXIT
"$top/snapfs" --build

small='u::rwx,g::---,o::rwx'
large=$(awk 'BEGIN { printf "u::rwx,g::---"; for (i = 1; i <= 32; i++) printf ",g:%d:rwx", 1000 + i; print ",m::rwx,o::---" }')
groups=$(awk 'BEGIN { for (i = 1; i < 32; i++) printf "%d,", 2000 + i; print 1032 }')

# A script of so many calls of one kind, on a root directory with this ACL.
script() {
    printf '0 login 0 0 -\n0 setacl / a %s\n1 login 7 2000 %s\n' "$1" "$groups"
    yes "$2" | head -n "$3" || true
}

# The least time of five runs, each on an image of its own, in microseconds.
least() {
    local best=0 begun taken
    for _ in 1 2 3 4 5; do
        "$program" mkfs "$work/image" 4096 > /dev/null
        begun=${EPOCHREALTIME/./}
        "$program" run "$work/image" "$1" > /dev/null
        taken=$((${EPOCHREALTIME/./} - begun))
        if [ "$best" -eq 0 ] || [ "$taken" -lt "$best" ]; then best=$taken; fi
    done
    echo "$best"
}

printf '%-10s %8s %10s %10s %12s %10s %12s\n' call entries half/ms million/ms ns/call call/stat million/half
tell() {
    local name=$1 entries=$2 acl=$3 call=$4
    script "$acl" "$call" 500000 > "$work/half"
    script "$acl" "$call" 1000000 > "$work/million"
    local half million
    half=$(least "$work/half")
    million=$(least "$work/million")
    if [ "$name" = stat ]; then stat=$million; fi
    awk -v name="$name" -v entries="$entries" -v half="$half" -v million="$million" -v stat="$stat" 'BEGIN {
        printf "%-10s %8d %10.1f %10.1f %12.1f %10.2f %12.2f\n", name, entries, half / 1000, million / 1000, million / 1000, million / stat, million / half
    }'
}
stat=0
tell stat 3 "$small" '1 stat /'
tell access 3 "$small" '1 access / rwx'
tell access 36 "$large" '1 access / rwx'
