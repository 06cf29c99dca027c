#!/bin/bash
# Kills the program that serves a mount, again and again at drawn moments, and looks whether all that was answered is there.
#
#     bench/mount/kill.sh [PROGRAM [ROUNDS [SEED]]]
#
# Run by hand as root where there is /dev/fuse; 20 rounds take a minute. In each `changes.py` makes drawn changes until nobody answers. The
# image then has to be sound, and the tree of the next mount the one that was answered, or that with the call in flight.
# shellcheck source-path=SCRIPTDIR source=shared.sh
. "$(dirname "$0")/shared.sh"
rounds=${2:-20}
RANDOM=${3:-1}
state=$work/state
answered=0

"$snapfs" mkfs "$image" 4096 >/dev/null && "$snapfs" mount "$image" "$dir" 2>"$work/told" || exit 1
for round in $(seq "$rounds"); do
    seed=$RANDOM
    timeout 60 python3 "$here/changes.py" make "$dir" "$state" "$seed" >"$work/made" 2>&1 &
    changes=$!
    sleep "$((RANDOM % 2)).$(printf '%03d' $((RANDOM % 1000)))"
    kill -9 "$(server_of "$image")"
    cases=$((cases + 1))
    wait "$changes" || is_wrong "round $round" "$(tail -n 3 "$work/made")"
    holds "round $round: sound" sh -c "'$snapfs' check '$image' | grep '^clean '"
    case_of "round $round: mounted again" 0 "" "$snapfs" mount "$image" "$dir"
    holds "round $round: what was answered" python3 "$here/changes.py" compare "$dir" "$state" "$seed"
    [ "$wrong" = 0 ] || break
    answered=$((answered + $(cat "$work/out")))
done
case_of "unmounted" 0 "" "$snapfs" unmount "$dir"
holds "sound" sh -c "'$snapfs' check '$image' | grep '^clean '"
echo "$answered calls were answered"
finish
