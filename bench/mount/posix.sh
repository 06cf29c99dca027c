#!/bin/bash
# Mounts an image, and compares what calls of the system answer on it with what they answer on the system's own file system: the cases of
# `posix.py`, which lists what may differ, and why, and drawn calls (`lockstep.py`).
#
#     bench/mount/posix.sh [PROGRAM [CALLS [SEED [kernel] [WORD..]]]]
#
# 10,000 calls are drawn where CALLS doesn't say how many. With `kernel` Linux checks on the mount; with words, only the cases with one in their name.
# Run by hand as root where there is /dev/fuse; takes some minutes. The folder for temporary files has to be on a file system with access
# control lists.
# shellcheck source-path=SCRIPTDIR source=shared.sh
. "$(dirname "$0")/shared.sh"
calls=${2:-10000} seed=${3:-1}
shift $(($# < 3 ? $# : 3))
mkdir "$work/host" "$work/drawn"
checks=()
[ "${1-}" != kernel ] || checks=(kernel)
"$snapfs" mkfs "$image" 32768 >/dev/null && "$snapfs" mount "$image" "$dir" "${checks[@]}" || exit 1
timeout 1200 python3 "$here/posix.py" "$dir" "$work/host" "$@"
status=$?
mkdir "$dir/drawn"
timeout 600 python3 "$here/lockstep.py" "$dir/drawn" "$work/drawn" "$calls" "$seed"
drawn=$?
case_of "unmounted" 0 "" "$snapfs" unmount "$dir"
holds "sound" sh -c "'$snapfs' check '$image' | grep '^clean '"
[ "$status" = 0 ] && [ "$drawn" = 0 ] || wrong=$((wrong + 1))
finish
