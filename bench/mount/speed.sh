#!/bin/bash
# Times what people do on a mount, beside fuse2fs and ext4 on a loop device, in one run.
#
#     bench/mount/speed.sh [PROGRAM]
#
# Run by hand on a quiet machine, as root where there is /dev/fuse; it wants git, rsync and fio, and for what is beside it mkfs.ext4, fuse2fs and a
# loop device. Each is done ROUNDS (7) times on each side in turn, since syncs take three times as long in one second as in the next. A line for each:
# seconds on the mount, and how many times those of the others, where they are there, by the middle of the rounds; the least and the most of
# these ratios, round by round, stand in brackets. Names on fuse2fs and ext4 aren't durable when a call returns, and here each is.
# (its functions are called by the words of a measurement)
# shellcheck disable=SC2317
# shellcheck source-path=SCRIPTDIR source=shared.sh
. "$(dirname "$0")/shared.sh"
export HOME=$work GIT_CONFIG_GLOBAL=/dev/null GIT_CONFIG_NOSYSTEM=1
BLOCKS=65536
ROUNDS=${ROUNDS:-7}
files=$work/files

make_files() {
    local number
    mkdir -p "$files"
    for number in $(seq 1000); do
        mkdir -p "$files/d$((number / 50))"
        head -c $((number * 7)) /dev/urandom >"$files/d$((number / 50))/f$number"
    done
    tar -C "$files" -cf "$work/files.tar" .
    mkdir "$work/half" && cp -r "$files"/d? "$work/half/"
}

# Each leaves what it makes below its first word, which is removed after all five of a round.
tar_in() { mkdir "$1/tar" && tar -C "$1/tar" -xf "$work/files.tar"; }
tar_out() { tar -C "$1/tar" -cf - . | cat >/dev/null; }
git_in() { cp -r "$work/half" "$1/git" && cd "$1/git" && git init -q . && git config user.email a@b && git config user.name a && git add . && git commit -qm one; }
rsync_in() { rsync -r "$work/half/" "$1/rsync/"; }
fio_in() { fio --name=one --filename="$1/fio" --size=4m --bs=16k --rw=randrw --verify=crc32c --do_verify=1 --verify_state_save=0 --randseed=1 --minimal; }

# The seconds that a measurement takes below a folder, in thousandths.
times() {
    local began
    began=$(date +%s%N)
    ("$1" "$2") >/dev/null 2>"$work/err" || { echo "$1 failed: $(head -n 2 "$work/err")" >&2 && echo 0 && return; }
    echo $((($(date +%s%N) - began) / 1000000))
}

make_files
"$snapfs" mkfs "$image" "$BLOCKS" >/dev/null && "$snapfs" mount "$image" "$dir" || exit 1
sides=$dir
if command -v fuse2fs mkfs.ext4 >/dev/null; then
    truncate -s $((BLOCKS * 4096)) "$work/fuse2fs.img" && mkfs.ext4 -q "$work/fuse2fs.img" && mkdir "$work/fuse2fs"
    fuse2fs -o rw "$work/fuse2fs.img" "$work/fuse2fs" && sides="$sides $work/fuse2fs"
fi
if command -v mkfs.ext4 >/dev/null; then
    truncate -s $((BLOCKS * 4096)) "$work/ext4.img" && mkfs.ext4 -q "$work/ext4.img" && mkdir "$work/ext4"
    mount -o loop "$work/ext4.img" "$work/ext4" && sides="$sides $work/ext4"
fi
for round in $(seq "$ROUNDS"); do
    for it in tar_in tar_out git_in rsync_in fio_in; do
        for side in $sides; do
            echo "$round ${it/_/ } ${side##*/} $(times "$it" "$side")"
        done
    done
    for side in $sides; do
        rm -rf "${side:?}"/{tar,git,rsync,fio}
    done
done | python3 "$here/speed.py"
"$snapfs" unmount "$dir"
"$snapfs" check "$image"
