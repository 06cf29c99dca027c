#!/bin/bash
# Tries `./snapfs mount` and `./snapfs unmount`: what they mount, what they leave, and what they refuse.
#
#     bench/mount/script.sh [PROGRAM]
#
# Run by hand as root where there is /dev/fuse; takes under two minutes. Mounts by users without root are tried where the system lets them.
# (its functions are called by the words of a case)
# shellcheck disable=SC2317
# shellcheck source-path=SCRIPTDIR source=shared.sh
. "$(dirname "$0")/shared.sh"

USAGE="snapfs: usage"
odd="$work/a folder/a mount"
disk="$work/a folder/a disk.img"
other=$work/other

# The options of the mount at a folder, and its source.
mounted() {
    at=$1 awk 'BEGIN { at = ENVIRON["at"]; gsub(/ /, "\\040", at) } $2 == at { print $1, $4 }' /proc/mounts
}

# Whether these options are among those of a mount.
has_options() {
    local found option
    found=,$(mounted "$1" | cut -d ' ' -f 2),
    shift
    for option; do
        case $found in
            *",$option,"*) ;;
            *)
                echo "without $option: $found"
                return 1
                ;;
        esac
    done
}

is_not_mounted() {
    [ -z "$(mounted "$1")" ]
}

# Whether the server alone has the device, so that its end is told at once.
server_has_the_device() {
    local file
    for file in /proc/[0-9]*/fd/*; do
        if [ "$(readlink "$file")" = /dev/fuse ]; then
            echo "$file" | cut -d / -f 3
        fi
    done | sort -u >"$work/holders"
    grep -qx "$(server_of "$1")" "$work/holders" && ! grep -qx "$$" "$work/holders"
}

answers_after() {
    kill "-$1" "$(server_of "$disk")"
    sleep 0.2
    ls "$odd" >/dev/null
}

# Ends as soon as the wrapper does: the server keeps neither of these.
ends_in_a_pipe() {
    "$snapfs" mount "$disk" "$odd" | cat
    "$snapfs" unmount "$odd" | cat
}

# Kills the server, and leaves the mount.
kill_server() {
    kill -9 "$(server_of "$disk")"
    while [ -n "$(server_of "$disk")" ]; do sleep 0.05; done
}

mkdir "$work/a folder" "$odd" "$other"
ln -s "$work/a folder" "$work/link"
case_of "an image is formatted" 0 ok "$snapfs" mkfs "$disk" 512

# ---- What is mounted
cd "$work/a folder" || exit 1
case_of "it is mounted, by relative paths" 0 "" "$snapfs" mount "a disk.img" "./a mount/"
cd "$work" || exit 1
holds "without set-user-ID and devices, for all" has_options "$odd" rw nosuid nodev allow_other user_id=0 group_id=0 max_read=65536
holds "with the image's path as its source" [ "$(mounted "$odd" | cut -d ' ' -f 1)" = "$(printf '%s' "$disk" | sed 's/ /\\040/g')" ]
holds "the server alone has the device" server_has_the_device "$disk"
holds "it isn't in the folder of who mounted" [ "$(readlink "/proc/$(server_of "$disk")/cwd")" = / ]
for signal in HUP INT QUIT; do
    holds "SIG$signal doesn't end it" answers_after "$signal"
done
case_of "a file is made" 0 "" sh -c "echo hello >'$odd/f'"
case_of "and read" 0 hello cat "$odd/f"

# ---- What is refused while it is
case_of "mounted twice at one folder" 1 "snapfs: $disk is mounted at $odd" "$snapfs" mount "$disk" "$odd"
case_of "mounted at another" 1 "snapfs: $disk is in use" "$snapfs" mount "$disk" "$other"
holds "where nothing is left" is_not_mounted "$other"
case_of "another image at the folder" 1 "snapfs: $disk is mounted at $odd" "$snapfs" mount "$program" "$odd"
case_of "checked" 1 "snapfs: file" "$snapfs" check "$disk"
case_of "formatted" 1 "snapfs: file" "$snapfs" mkfs "$disk" 256
case_of "unmounted while it is used" 1 "snapfs: umount: $odd: target is busy." sh -c "cd '$odd' && '$snapfs' unmount '$odd'"
case_of "and is there still" 0 hello cat "$odd/f"

# ---- The end
case_of "it is unmounted, by another path" 0 "" "$snapfs" unmount "$work/link/a mount"
case_of "and checked at once" 0 "clean 440" "$snapfs" check "$disk"
holds "nothing is there" [ -z "$(ls -A "$odd")" ]
for round in 1 2 3 4 5 6 7 8 9 10; do
    case_of "round $round" 0 "" "$snapfs" mount "$disk" "$odd"
    holds "is written" sh -c "echo $round >'$odd/round' && mkdir '$odd/d$round'"
    case_of "unmounted" 0 "" "$snapfs" unmount "$odd"
    holds "and free" sh -c "'$snapfs' check '$disk' | grep -q '^clean '"
done
holds "no server waits for a pipe to end" ends_in_a_pipe

# ---- What is refused
case_of "unmounted twice" 1 "snapfs: no image is mounted at $odd" "$snapfs" unmount "$odd"
case_of "unmounted where nothing is" 1 "snapfs: no image is mounted at $work/nowhere/x" "$snapfs" unmount "$work/nowhere/x"
case_of "another mount unmounted" 1 "snapfs: no image is mounted at /proc" "$snapfs" unmount /proc
case_of "a folder that isn't there" 1 "snapfs: $work/nowhere is no directory" "$snapfs" mount "$disk" "$work/nowhere"
case_of "one in a folder that isn't there" 1 "snapfs: $work/nowhere/x is no directory" "$snapfs" mount "$disk" "$work/nowhere/x"
case_of "a file as the folder" 1 "snapfs: $program is no directory" "$snapfs" mount "$disk" "$program"
case_of "an image that isn't there" 1 "snapfs: nowhere.img is no regular file" "$snapfs" mount nowhere.img "$odd"
case_of "a folder as the image" 1 "snapfs: $other is no regular file" "$snapfs" mount "$other" "$odd"
truncate -s 2M "$work/zeros"
case_of "an image that isn't formatted" 1 "snapfs: M1" "$snapfs" mount "$work/zeros" "$odd"
holds "nothing is mounted then" is_not_mounted "$odd"
case_of "an image below the folder" 1 "snapfs: $disk is below $work" "$snapfs" mount "$disk" "$work"
case_of "one that a link leads to" 1 "snapfs: link/a disk.img is below $work/a folder" "$snapfs" mount "link/a disk.img" "$work/a folder"
case_of "all below the root" 1 "snapfs: $disk is below /" "$snapfs" mount "$disk" /
for words in "mount a b log=" "mount a b log=x kernel" "mount a b log=x log=x" "mount" "mount $disk" "mount a b kern" "mount a b kernel c" "mount a b kernel kernel" "mount a b c --" "mount -x b" "mount a -x" "unmount" "unmount a b" "unmount -x"; do
    # shellcheck disable=SC2086
    case_of "$words" 2 "$USAGE" "$snapfs" $words
done
case_of "an empty word" 2 "$USAGE" "$snapfs" mount "" "$odd"
if command -v script >/dev/null; then
    script -qec "'$snapfs' unmount" /dev/null </dev/null >"$work/terminal"
    holds "a person is shown the words" [ "$(grep -c '^snapfs: usage\|^snapfs mount \|^snapfs unmount ' "$work/terminal")" = 4 ]
fi

# ---- The manual page has each line that the script tells of mounts
lines_are_told() {
    mandoc -Tascii -Owidth=1000 "$top/docs/snapfs.8" 2>/dev/null | col -b | tr -s ' \t' '  ' >"$work/manual"
    sed -n '/^# ---- Mounts/,/^is_of_mount/s/.*fail "\([^"]*\)".*/\1/p' "$top/snapfs" | grep -v '[$](' |
        awk '{ n = split($0, piece, /\$[A-Za-z0-9_]+|: .*/); best = ""; for (i = 1; i <= n; i++) if (length(piece[i]) > length(best)) best = piece[i]; print best }' |
        while IFS= read -r line; do
            grep -qF -- "$line" "$work/manual" || { echo "not in the manual: $line" && exit 1; }
        done
}
if command -v mandoc >/dev/null; then
    holds "the manual page is well formed" mandoc -Tlint -Wwarning "$top/docs/snapfs.8"
    holds "and has each line" lines_are_told
else
    echo "left out: mandoc isn't installed"
fi

# ---- A server that was killed
case_of "mounted" 0 "" "$snapfs" mount "$disk" "$odd"
kill_server
case_of "nobody serves it" 2 "ls: cannot access '$odd': Transport endpoint is not connected" ls "$odd"
case_of "it is mounted again" 0 "" "$snapfs" mount "$disk" "$odd"
case_of "with all that was answered" 0 hello cat "$odd/f"
holds "once" [ "$(mounted "$odd" | wc -l)" = 1 ]
(cd "$odd" && exec sleep 60) &
sleeper=$!
sleep 0.2
kill_server
case_of "it is mounted again where a process is in it" 0 "" "$snapfs" mount "$disk" "$odd"
kill "$sleeper"
kill_server
case_of "it is unmounted" 0 "" "$snapfs" unmount "$odd"
case_of "and sound" 0 "clean" sh -c "'$snapfs' check '$disk' | sed 's/ .*//'"

# ---- An image that fails: the file system that it is in is full
mkdir "$work/full"
mount -t tmpfs -o size=900k none "$work/full"
fills_up() {
    local number
    for number in $(seq 200); do
        head -c 8000 /dev/zero | tr '\0' "$((number % 10))" >"$odd/f$number" || break
    done
    [ "$number" -gt 10 ] && [ "$number" -lt 200 ] && echo "$((number - 1))" >"$work/made" && ! ls "$odd"
}
has_all_that_was_made() {
    local number
    for number in $(seq "$(cat "$work/made")"); do
        [ "$(tr -d "$((number % 10))" <"$odd/f$number" | wc -c):$(stat -c %s "$odd/f$number")" = 0:8000 ] || return
    done
}
case_of "an image of more blocks than there is room for" 0 ok "$snapfs" mkfs "$work/full/disk.img" 4096
"$snapfs" mount "$work/full/disk.img" "$odd" log="$work/told" 2>"$work/err"
holds "is mounted, and fails" fills_up
mount -o remount,size=9m "$work/full"
case_of "it is mounted again where it failed" 0 "" "$snapfs" mount "$work/full/disk.img" "$odd"
holds "its program told why, in its log" [ "$(cat "$work/told"):$(cat "$work/err")" = "snapfs: stopped:" ]
holds "all that was made is there" has_all_that_was_made
case_of "it is unmounted" 0 "" "$snapfs" unmount "$odd"
case_of "and sound" 0 "clean" sh -c "'$snapfs' check '$work/full/disk.img' | sed 's/ .*//'"

# ---- By a line of fstab(5), for which mount(8) calls the script as mount.snapfs
line=$work/mount.snapfs
ln -s "$snapfs" "$line"
case_of "it is mounted by a line" 0 "" "$line" "$disk" "$odd" -v -o rw,nofail,runas=root
holds "as by the command" has_options "$odd" rw nosuid nodev relatime allow_other
case_of "and written" 0 "" sh -c "echo line >'$odd/line'"
case_of "it is mounted twice" 1 "snapfs: $disk is mounted at $odd" "$line" "$disk" "$odd" -o rw
case_of "it is unmounted" 0 "" "$snapfs" unmount "$odd"
case_of "for reading alone, Linux checks" 0 "" "$line" "$disk" "$odd" -o "ro,kernel" -o "noatime,noexec"
holds "by these options" has_options "$odd" ro noatime noexec nosuid nodev default_permissions
case_of "a change is refused" 2 "sh: 1: cannot create $odd/line: Read-only file system" sh -c "echo more >'$odd/line'"
case_of "what was written is read" 0 line cat "$odd/line"
case_of "it is unmounted again" 0 "" "$snapfs" unmount "$odd"
case_of "nothing is mounted where only the words are tried" 0 "" "$line" "$disk" "$odd" -f -o rw
holds "and nothing is" is_not_mounted "$odd"
case_of "an option that isn't known" 1 "snapfs: umask=022 is no option of a mount" "$line" "$disk" "$odd" -o rw,umask=022
holds "leaves no mount" is_not_mounted "$odd"
case_of "it is passed over where who asks says so" 0 "" "$line" "$disk" "$odd" -s -o rw,umask=022
case_of "it is unmounted" 0 "" "$snapfs" unmount "$odd"
case_of "a user who isn't there" 1 "snapfs: there is no user nobody-of-this-name" "$line" "$disk" "$odd" -o runas=nobody-of-this-name
case_of "a word too few" 2 "$USAGE" "$line" "$disk"
case_of "a word is a path, whatever it is called" 1 "snapfs: unmount is no regular file" "$line" unmount "$odd"

# ---- As long as a command runs
case_of "a command's status" 7 hello "$snapfs" mount "$disk" "$odd" -- sh -c "cat '$odd/f'; exit 7"
holds "and no mount is left" is_not_mounted "$odd"
case_of "a shell without one" 0 "" env SHELL=/bin/sh "$snapfs" mount "$disk" "$odd" --
case_of "one that unmounts" 0 "" "$snapfs" mount "$disk" "$odd" -- umount "$odd"
timeout 30 "$snapfs" mount "$disk" "$odd" -- nothing-of-this-name 2>"$work/err"
holds "no command" [ "$?:$(wc -l <"$work/err")" = 127:1 ]
case_of "a process that is left" 0 "" "$snapfs" mount "$disk" "$odd" -- sh -c "cd '$odd' && sleep 2 >/dev/null 2>&1 &"
case_of "keeps no image" 0 "clean" sh -c "'$snapfs' check '$disk' | sed 's/ .*//'"

# ---- Linux checks: what differs from what the program checks
by_id() {
    local who=$1
    shift
    setpriv --reuid="${who%:*}" --regid="${who#*:}" --clear-groups -- "$@"
}
in_many_groups() {
    setpriv --reuid=1001 --regid=100 --groups "$(seq -s , 200 239)" -- "$@"
}
# A user makes a file and a directory below one, and tells whose they are.
makes_below() {
    by_id "$1" sh -c 'umask 022 && cd "$1" && echo made >"f$2" && mkdir "d$2" && stat -c "%u:%g %a" "f$2" "d$2"' sh "$2" "$1"
}
# A user writes and reads in a directory that they were put into, below one that they may not search.
below_closed() {
    cd "$odd/closed/below" && by_id 1002:100 sh -c 'echo in >f && cat f'
}
denied=": Permission denied"
case_of "it is mounted where Linux checks" 0 "" "$snapfs" mount "$disk" "$odd" kernel
holds "which its options say" has_options "$odd" rw nosuid nodev allow_other default_permissions
holds "directories are made" sh -c "cd '$odd' && mkdir -m 1777 all && mkdir -m 755 group && chgrp 50 group && chmod 2777 group && mkdir -p closed/below && chmod 777 closed/below && chmod 700 closed"
case_of "what a user makes is theirs" 0 $'1001:100 644\n1001:100 755' makes_below 1001:100 "$odd/all"
case_of "with the group of the directory, where it says so" 0 $'1001:50 644\n1001:50 2755' makes_below 1001:100 "$odd/group"
case_of "in a group of root's" 0 $'1001:0 644\n1001:0 755' makes_below 1001:0 "$odd/all"
holds "a user closes it" by_id 1001:100 chmod 600 "$odd/all/f1001:100"
case_of "to others" 1 "cat: '$odd/all/f1001:100'$denied" by_id 1002:100 cat "$odd/all/f1001:100"
case_of "and has it" 0 made by_id 1001:100 cat "$odd/all/f1001:100"
case_of "others remove nothing" 1 "rm: cannot remove '$odd/all/f1001:100': Operation not permitted" by_id 1002:100 rm -f "$odd/all/f1001:100"
case_of "users make no snapshots" 1 "mkdir: cannot create directory ‘$odd/.snapshot/s’$denied" env LC_ALL=C.UTF-8 setpriv --reuid=1001 --regid=100 --clear-groups mkdir "$odd/.snapshot/s"
case_of "a user of 40 groups reads" 0 hello in_many_groups cat "$odd/f"
case_of "a working directory below a closed one is used" 0 in below_closed
if command -v setfacl >/dev/null; then
    holds "lists are set" sh -c "cd '$odd' && echo one >one && setfacl -m u:1001:--- one && echo two >two && setfacl -m u:1001:rwx,g::---,m::---,o::r-- two"
    case_of "a list denies" 1 "cat: '$odd/one'$denied" by_id 1001:100 cat "$odd/one"
    case_of "others have it" 0 one by_id 1002:100 cat "$odd/one"
    case_of "an empty mask doesn't count" 0 two by_id 1001:100 cat "$odd/two"
fi
case_of "unmounted" 0 "" "$snapfs" unmount "$odd"
case_of "and sound" 0 "clean" sh -c "'$snapfs' check '$disk' | sed 's/ .*//'"
case_of "it is mounted where the program checks" 0 "" "$snapfs" mount "$disk" "$odd"
case_of "owners are kept" 0 $'1001:100 600\n1001:50 2755' stat -c '%u:%g %a' "$odd/all/f1001:100" "$odd/group/d1001:100"
case_of "what a user makes is theirs here too" 0 $'1002:100 644\n1002:100 755' makes_below 1002:100 "$odd/all"
case_of "a user of 40 groups is denied" 1 "cat: '$odd/f'$denied" in_many_groups cat "$odd/f"
case_of "so is a working directory below a closed one" 2 "sh: 1: cannot create f$denied" below_closed
if command -v setfacl >/dev/null; then
    case_of "and by an empty mask" 1 "cat: '$odd/two'$denied" by_id 1001:100 cat "$odd/two"
fi
case_of "unmounted" 0 "" "$snapfs" unmount "$odd"
case_of "for a command" 4 default_permissions "$snapfs" mount "$disk" "$odd" kernel -- sh -c "grep fuse.snapfs /proc/mounts | grep -o default_permissions; exit 4"

# ---- As another user
id=$(id -u nobody)
case_of "a user that isn't there" 1 "snapfs: there is no user no-such-user" env SNAPFS_USER=no-such-user "$snapfs" mount "$disk" "$odd"
chmod 600 "$disk"
case_of "one who may not write the image" 1 "snapfs: file" env SNAPFS_USER=nobody "$snapfs" mount "$disk" "$odd"
chown nobody "$disk"
case_of "the image's owner" 0 "" env SNAPFS_USER=nobody "$snapfs" mount "$disk" "$odd"
holds "is who serves it" [ "$(stat -c %u "/proc/$(server_of "$disk")")" = "$id" ]
case_of "and root's files are root's" 0 "0 hello" sh -c "stat -c '%u %n' '$odd/f' | cut -d ' ' -f 1 | tr '\n' ' '; cat '$odd/f'"
case_of "unmounted" 0 "" "$snapfs" unmount "$odd"

# ---- Without root: in a namespace where anybody may open the device
mknod -m 666 "$work/fuse" c 10 229
by_user() {
    # shellcheck disable=SC2016
    timeout 60 unshare -m sh -c 'mount --bind "$1/fuse" /dev/fuse && shift && exec setpriv --reuid=nobody --clear-groups -- "$@"' sh "$work" "$@"
}
case_of "only root mounts for all" 1 "snapfs: only root mounts for all: add -- COMMAND, which alone sees the mount then" by_user "$snapfs" mount "$disk" "$odd"
if by_user unshare -Urm true 2>/dev/null; then
    # shellcheck disable=SC2016
    case_of "a user mounts for a command" 5 "0 hello" by_user "$snapfs" mount "$disk" "$odd" -- \
        sh -c 'echo "$(id -u) $(cat "$1/f")"; echo mine >"$1/mine"; mkdir "$1/.snapshot/s"; exit 5' sh "$odd"
    holds "which alone saw it" is_not_mounted "$odd"
    case_of "and finds it again" 0 mine by_user "$snapfs" mount "$disk" "$odd" -- cat "$odd/.snapshot/s/../../mine"
    case_of "also where Linux checks" 0 mine by_user "$snapfs" mount "$disk" "$odd" kernel -- cat "$odd/mine"
    if command -v setfacl >/dev/null; then
        case_of "without access control lists" 1 "setfacl: $odd/mine: Operation not supported" by_user "$snapfs" mount "$disk" "$odd" -- setfacl -m u:0:r "$odd/mine"
    fi
    case_of "an image of others" 1 "snapfs: file" by_user "$snapfs" mount "$program" "$odd" -- true
else
    echo "left out: this system lets no user make a namespace"
fi

# ---- The streams and descriptors of who mounts
mounts_in_a_pipe() {
    [ "$("$snapfs" mount "$disk" "$odd" 2>&1 6>"$work/six" 12>"$work/twelve" | cat)" = "" ]
}
has_no_other_descriptors() {
    local open
    for open in "/proc/$(server_of "$disk")"/fd/*; do
        case $(readlink "$open") in
            /dev/fuse | */lines* | "$disk") ;;
            *) readlink "$open" && return 1 ;;
        esac
    done
}
holds "who reads its lines through a pipe doesn't wait" mounts_in_a_pipe
holds "the server has no descriptor of its caller's" has_no_other_descriptors
case_of "unmounted" 0 "" "$snapfs" unmount "$odd"
cat >"$work/tells" <<TELLS
#!/bin/sh
[ "\$1" = serve ] && echo "snapfs: a line" >&2
exec '$program' "\$@"
TELLS
chmod 755 "$work/tells"
use_program "$work/tells"
case_of "what is told before it answers is told to who mounts" 0 "snapfs: a line" "$snapfs" mount "$disk" "$odd"
case_of "unmounted" 0 "" "$snapfs" unmount "$odd"
echo before >"$work/log"
case_of "and added to a log" 0 "snapfs: a line" "$snapfs" mount "$disk" "$odd" log="$work/log"
case_of "unmounted" 0 "" "$snapfs" unmount "$odd"
holds "after what that had" [ "$(cat "$work/log")" = "$(printf 'before\nsnapfs: a line')" ]
case_of "a log that is made" 0 $'in\nsnapfs: a line' "$snapfs" mount "$disk" "$odd" log="$work/new.log" -- echo in
holds "has it" [ "$(cat "$work/new.log")" = "snapfs: a line" ]
mkfifo "$work/fifo"
ln -s "$work/log" "$work/linked.log"
echo >"$work/others.log"
chown nobody "$work/others.log"
for log in fifo linked.log others.log full; do
    case_of "a log that is none: $log" 1 "snapfs: $work/$log is no regular file of who mounts" "$snapfs" mount "$disk" "$odd" log="$work/$log"
    holds "leaves no mount" is_not_mounted "$odd"
done
case_of "a log in a folder that isn't there" 1 "snapfs: $work/nowhere/log can't be written" "$snapfs" mount "$disk" "$odd" log="$work/nowhere/log"
case_of "by a line of fstab(5)" 0 "snapfs: a line" "$line" "$disk" "$odd" -o rw,log="$work/line.log"
case_of "unmounted" 0 "" "$snapfs" unmount "$odd"
holds "the same" [ "$(cat "$work/line.log")" = "snapfs: a line" ]
use_program "$program"

# ---- Servers that don't come to serve
cat >"$work/slow" <<SLOW
#!/bin/sh
[ "\$1" = serve ] && sleep 2
exec '$program' "\$@"
SLOW
chmod 755 "$work/slow"
use_program "$work/slow"
case_of "a slow server is waited for" 0 "" sh -c "'$snapfs' mount '$disk' '$odd' && timeout 1 cat '$odd/f' >/dev/null && '$snapfs' unmount '$odd'"
setsid "$snapfs" mount "$disk" "$odd" 2>"$work/err" &
waiting=$!
sleep 1
kill -TERM "$waiting"
kill -TERM "$(pgrep -P "$waiting" -x stat)" 2>/dev/null
wait "$waiting"
status=$?
holds "who is ended while it waits leaves no mount" [ "$status:$(mounted "$odd")" = 1: ]
sleep 2
cat >"$work/killed" <<'KILLED'
#!/bin/sh
[ "$1" = serve ] && kill -9 $$
exit 2
KILLED
chmod 755 "$work/killed"
use_program "$work/killed"
timeout 30 "$snapfs" mount "$disk" "$odd" 2>"$work/err"
status=$?
holds "one that is killed at once" [ "$status:$(grep -v Killed "$work/err")" = "1:snapfs: the program was killed before it served $odd" ]
holds "leaves no mount" is_not_mounted "$odd"
finish
