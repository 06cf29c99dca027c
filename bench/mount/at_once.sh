#!/bin/bash
# Tries mounts that begin at one moment, ten each time: of one image at one folder, of one at ten, of ten at one, and of an image that is being
# unmounted. One of them is there afterwards, and the others told why they aren't.
#
#     bench/mount/at_once.sh [PROGRAM [ROUNDS]]
#
# Run by hand as root where there is /dev/fuse; takes a minute for ten rounds, which it makes without ROUNDS.
# (its functions are called by the words of a case)
# shellcheck disable=SC2317
# shellcheck source-path=SCRIPTDIR source=shared.sh
. "$(dirname "$0")/shared.sh"

rounds=${2:-10}
go=$work/go
mkfifo "$go"
for number in 1 2 3 4 5 6 7 8 9 10; do
    mkdir "$work/dir$number"
    case_of "image $number is formatted" 0 ok "$snapfs" mkfs "$work/disk$number.img" 256
done

# Mounts an image at a folder, once all may begin. Standard error is a file, since a server keeps it.
mount_at() {
    : <"$go"
    exec "$snapfs" mount "$work/disk$1.img" "$work/dir$2" 2>"$work/told$3" >/dev/null
}

# How many snapfs mounts there are, and how many of the images are in use.
count_mounts() {
    mounts_here | wc -l
}
count_used() {
    local number used=0
    for number in 1 2 3 4 5 6 7 8 9 10; do
        flock -n "$work/disk$number.img" true || used=$((used + 1))
    done
    echo "$used"
}

# Whether one who wasn't mounted told so: which image, and which folder.
is_told() {
    local lines
    lines=$(cat "$work/told$3")
    case $lines in
        "snapfs: $work/dir$2 is being mounted" | "snapfs: $work/disk$1.img is in use" | $'snapfs: file\n'"snapfs: $work/disk$1.img is in use") ;;
        "snapfs: $work/disk"*".img is mounted at $work/dir$2") ;;
        *)
            echo "told: $lines"
            return 1
            ;;
    esac
}

# Ten mounts at once, the images and the folders of which are `one` or `each`: one of them is there, and the others told why they aren't.
one_wins() {
    local number image_number dir_number won=0 processes=() images=() dirs=()
    for number in 1 2 3 4 5 6 7 8 9 10; do
        image_number=$number dir_number=$number
        [ "$1" = each ] || image_number=1
        [ "$2" = each ] || dir_number=1
        images+=("$image_number") dirs+=("$dir_number")
        mount_at "$image_number" "$dir_number" "$number" &
        processes+=("$!")
    done
    sleep 0.2
    : >"$go"
    for number in 1 2 3 4 5 6 7 8 9 10; do
        wait "${processes[number - 1]}"
        case $? in
            0) won=$((won + 1)) ;;
            1) is_told "${images[number - 1]}" "${dirs[number - 1]}" "$number" || return ;;
            *) return 1 ;;
        esac
    done
    [ "$won:$(count_mounts):$(count_used)" = 1:1:1 ] || { echo "won $won, mounts $(count_mounts), used $(count_used)" && return 1; }
    ls "$(mounts_here)" >/dev/null
}

# What one round leaves: no mount, and images that are free and sound.
all_is_unmounted() {
    local number
    "$snapfs" unmount "$(mounts_here)" || return
    [ "$(count_mounts):$(count_used)" = 0:0 ] || return
    for number in 1 2 3 4 5 6 7 8 9 10; do
        "$snapfs" check "$work/disk$number.img" | grep -q '^clean ' || return
    done
}

# An image is mounted elsewhere while it is unmounted.
moves() {
    local from=$1 to=$2 unmounting
    {
        : <"$go"
        exec "$snapfs" unmount "$work/dir$from"
    } &
    unmounting=$!
    mount_at 1 "$to" 1 &
    sleep 0.1
    : >"$go"
    wait "$!" || { cat "$work/told1" && return 1; }
    wait "$unmounting" && [ "$(mounts_here)" = "$work/dir$to" ] && ls "$work/dir$to"
}

# The folder has a mount whose server was killed, which each would take out first.
leaves_a_dead_mount() {
    "$snapfs" mount "$work/disk2.img" "$work/dir1" 2>/dev/null && kill -9 "$(server_of "$work/disk2.img")" || return
    while ! flock -n "$work/disk2.img" true; do sleep 0.05; done
}

for round in $(seq "$rounds"); do
    for words in "one one" "one each" "each one"; do
        # shellcheck disable=SC2086
        holds "round $round, $words" one_wins $words
        holds "round $round, $words: unmounted" all_is_unmounted
    done
    holds "round $round: a server is killed" leaves_a_dead_mount
    holds "round $round, where nobody serves" one_wins one one
    holds "round $round, where nobody serves: unmounted" all_is_unmounted
done
case_of "an image is mounted" 0 "" "$snapfs" mount "$work/disk1.img" "$work/dir1"
for round in $(seq "$rounds"); do
    holds "round $round: it moves" moves 1 2
    holds "round $round: and back" moves 2 1
done
case_of "who reads an image keeps it for a moment" 0 "" sh -c "'$snapfs' unmount '$work/dir1' && { flock -s '$work/disk1.img' sleep 0.5 & sleep 0.1; '$snapfs' mount '$work/disk1.img' '$work/dir1'; }"
case_of "or for longer" 1 "snapfs: $work/disk1.img is in use" "$snapfs" mount "$work/disk1.img" "$work/dir2"
case_of "it is unmounted" 0 "" "$snapfs" unmount "$work/dir1"
finish
