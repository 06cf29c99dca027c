# shellcheck shell=bash
# What the scripts of this folder share: read by `. shared.sh PROGRAM`. They are run as root where there is /dev/fuse, and take a program
# that has `serve`: without the word PROGRAM the release.
#
# They run in mount and process namespaces of their own, so that no mount and no server is left, whatever goes wrong. All is below one folder for
# temporary files, which goes at the end: a checkout whose built program is PROGRAM (its wrapper is `$snapfs`), an image (`$image`) and a folder for a
# mount (`$dir`). Each case that isn't as it should be is printed.
set -u
# (what is set here is known to the shells that run the functions of a case)
set -a
LC_ALL=C
export LC_ALL
here=$(cd "$(dirname "${BASH_SOURCE[0]}")" && pwd -P)
top=$(cd "$here/../.." && pwd -P)
program=$(readlink -f -- "${1:-$top/release/snapfs}")
cases=0 wrong=0

if [ "$(id -u)" != 0 ] || ! [ -c /dev/fuse ]; then
    echo "${0##*/}: wants root and /dev/fuse"
    exit 1
fi
if [ "$$" != 1 ]; then
    exec unshare --mount --pid --fork --kill-child --mount-proc bash "$0" "$@"
fi
work=$(mktemp -d)
# shellcheck disable=SC2034
image=$work/disk.img dir=$work/mount
checkout=$work/checkout
# shellcheck disable=SC2034
snapfs=$checkout/snapfs
# Others have to come through it.
chmod 755 "$work"
mkdir "$dir"

# The mounts below the folder, as umount takes them.
mounts_here() {
    awk -v "front=$work/" 'index($2, front) == 1 { print $2 }' /proc/mounts | while read -r found; do
        printf '%b\n' "$(printf '%s\n' "$found" | sed 's/\\\([0-7][0-7][0-7]\)/\\0\1/g')"
    done
}

leave() {
    cd /
    mounts_here | while IFS= read -r found; do
        umount -l "$found"
    done
    rm -rf --one-file-system "$work"
}
trap leave EXIT
trap 'exit 1' HUP INT TERM

# A checkout of no source but one, so that its program is up to date.
make_checkout() {
    mkdir -p "$checkout/.ci" "$checkout/crates/sn_bin/src" "$checkout/crates/sn_bin/out"
    cp "$top/snapfs" "$checkout/"
    cp "$top/.ci/sources.sh" "$checkout/.ci/"
    echo "sn_bin:" >"$checkout/crates.txt"
    : >"$checkout/crates/sn_bin/src/main.rt"
    use_program "$program"
}

# Makes a file the program of the checkout.
use_program() {
    cp "$1" "$checkout/crates/sn_bin/out/sn_bin"
    (cd "$checkout" && sh .ci/sources.sh list >crates/sn_bin/out/sn_bin.built)
}
make_checkout
export SNAPFS_BUILT=1

# A case that went wrong, and what is to be known of it.
is_wrong() {
    wrong=$((wrong + 1))
    printf 'wrong: %s: %s\n' "$1" "$2"
}

# Runs a command or one of the functions here, no longer than so many seconds.
limited() {
    local seconds=$1
    shift
    # shellcheck disable=SC2016
    timeout "$seconds" bash -c '"$@"' limited "$@"
}

# case_of NAME STATUS LINES COMMAND..: the status that a command ends with, and what it writes, the lines of standard error after it. A server
# keeps standard error, so it is a file.
case_of() {
    local name=$1 status=$2 lines=$3 found
    shift 3
    limited 120 "$@" >"$work/out" 2>"$work/err" </dev/null
    found=$?
    cases=$((cases + 1))
    if [ "$found" != "$status" ] || [ "$(cat "$work/out" "$work/err")" != "$lines" ]; then
        is_wrong "$name" "status $found, wrote $(cat "$work/out" "$work/err")"
    fi
}

# holds NAME COMMAND..: a command that has to succeed. What it writes is shown where it doesn't.
holds() {
    local name=$1
    shift
    cases=$((cases + 1))
    if ! limited 300 "$@" >"$work/out" 2>&1 </dev/null; then
        is_wrong "$name" "$(head -n 5 "$work/out")"
    fi
}

# The process that serves an image.
server_of() {
    fuser "$1" 2>/dev/null | tr -d ' '
}

# The last line, and the status.
finish() {
    echo "${0##*/}: $cases cases, $wrong wrong"
    [ "$wrong" -eq 0 ]
    exit
}
