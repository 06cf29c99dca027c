#!/bin/bash
# Tries `./snapfs rotate` and `./snapfs status`: what they make, remove, tell and refuse.
#
#     bench/mount/rotate.sh [PROGRAM]
#
# Run by hand as root where there is /dev/fuse; takes some ten seconds. The clock that `date` tells is given by a file.
# (its functions are called by the words of a case)
# shellcheck disable=SC2317
# shellcheck source-path=SCRIPTDIR source=shared.sh
. "$(dirname "$0")/shared.sh"

USAGE="snapfs: usage"
mkdir "$work/bin"
cat >"$work/bin/date" <<DATE
#!/bin/sh
cat "$work/clock"
DATE
chmod 755 "$work/bin/date"
PATH=$work/bin:$PATH

# rotate_at CLOCK WORDS..
rotate_at() {
    echo "$1" >"$work/clock"
    shift
    "$snapfs" rotate "$dir" "$@"
}
snapshots() {
    (cd "$dir/.snapshot" && echo *)
}

case_of "an image is formatted" 0 ok "$snapfs" mkfs "$image" 4096
case_of "what isn't mounted isn't rotated" 1 "snapfs: no image is mounted at $dir" rotate_at 20260101-000000 day 3
case_of "and has no status" 1 "snapfs: no image is mounted at $dir" "$snapfs" status "$dir"
case_of "it is mounted" 0 "" "$snapfs" mount "$image" "$dir"
case_of "its status" 0 $'mode default\nfree 3955 of 4020\nsnapshots 0' "$snapfs" status "$dir"

# ---- What is made, and what is removed
case_of "the first" 0 "" rotate_at 20260101-000000 day 3
case_of "a name that is there" 1 "snapfs: mkdir: cannot create directory '$dir/.snapshot/day-20260101-000000': File exists" rotate_at 20260101-000000 day 1
case_of "leaves all" 0 day-20260101-000000 snapshots
for day in 02 03; do
    case_of "day $day" 0 "" rotate_at "202601$day-000000" day 3
done
mkdir "$dir/.snapshot/day-2026" "$dir/.snapshot/day-20260101-0000000" "$dir/.snapshot/aday-20250101-000000" "$dir/.snapshot/day-x-20250101-000000"
case_of "the fourth" 0 "" rotate_at 20260104-000000 day 3
case_of "takes the oldest's place, and no other's" 0 \
    "aday-20250101-000000 day-2026 day-20260101-0000000 day-20260102-000000 day-20260103-000000 day-20260104-000000 day-x-20250101-000000" snapshots
case_of "another prefix" 0 "" rotate_at 20260104-000000 day-x 1
case_of "has its own" 0 \
    "aday-20250101-000000 day-2026 day-20260101-0000000 day-20260102-000000 day-20260103-000000 day-20260104-000000 day-x-20260104-000000" snapshots
case_of "a clock that went back" 0 "" rotate_at 20200101-000000 day 2
case_of "removes no new one" 0 \
    "aday-20250101-000000 day-20200101-000000 day-2026 day-20260101-0000000 day-20260104-000000 day-x-20260104-000000" snapshots
case_of "status counts all" 0 "snapshots 6" sh -c "'$snapfs' status '$dir' | tail -n 1"

# ---- A snapshot that is busy
echo hello >"$dir/f"
case_of "one with a file" 0 "" rotate_at 20260105-000000 day 9
case_of "one after it" 0 "" rotate_at 20260106-000000 day 9
exec 5<"$dir/.snapshot/day-20260105-000000/f"
case_of "is left with a line, and the others go" 1 \
    "snapfs: rmdir: failed to remove '$dir/.snapshot/day-20260105-000000': Device or resource busy" rotate_at 20260107-000000 day 1
exec 5<&-
case_of "and nothing else" 0 "aday-20250101-000000 day-2026 day-20260101-0000000 day-20260105-000000 day-20260107-000000 day-x-20260104-000000" snapshots

# ---- All 31 taken
for number in $(seq 25); do
    mkdir "$dir/.snapshot/s$number"
done
case_of "no room for one more" 1 "snapfs: mkdir: cannot create directory '$dir/.snapshot/day-20260108-000000': No space left on device" rotate_at 20260108-000000 day 1
case_of "removes nothing" 0 "snapshots 31" sh -c "'$snapfs' status '$dir' | tail -n 1"

# ---- Words
for words in "" "day" "day 3 4" "day 0" "day 31" "day 03" "day x" "1234567890123456 3" "da/y 3"; do
    # shellcheck disable=SC2086
    case_of "rotate $words" 2 "$USAGE" "$snapfs" rotate "$dir" $words
done
case_of "an empty prefix" 2 "$USAGE" "$snapfs" rotate "$dir" "" 3
case_of "status of nothing" 2 "$USAGE" "$snapfs" status
case_of "status of two" 2 "$USAGE" "$snapfs" status "$dir" "$dir"
case_of "unmounted" 0 "" "$snapfs" unmount "$dir"
case_of "where Linux checks" 0 "" "$snapfs" mount "$image" "$dir" kernel
case_of "the status says so" 0 "mode kernel" sh -c "'$snapfs' status '$dir' | head -n 1"

# ---- A mount that fails
kill -9 "$(server_of "$image")"
while [ -n "$(server_of "$image")" ]; do sleep 0.05; done
case_of "a killed server" 1 stopped "$snapfs" status "$dir"
case_of "makes no snapshot" 1 "snapfs: mkdir: cannot create directory '$dir/.snapshot/day-20260109-000000': Transport endpoint is not connected" rotate_at 20260109-000000 day 1
case_of "unmounted" 0 "" "$snapfs" unmount "$dir"
mkdir "$work/full"
mount -t tmpfs -o size=900k none "$work/full"
case_of "an image of more blocks than there is room for" 0 ok "$snapfs" mkfs "$work/full/disk.img" 4096
case_of "is mounted" 0 "" "$snapfs" mount "$work/full/disk.img" "$dir"
case_of "and fails" 1 "" sh -c "head -c 4000000 /dev/zero >'$dir/f' 2>/dev/null"
case_of "which its status tells" 1 stopped "$snapfs" status "$dir"
finish
