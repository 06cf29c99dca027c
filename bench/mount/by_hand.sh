#!/bin/sh
# Mounts an image, uses it for a short while and unmounts it: a first try of `snapfs serve`, run by hand as root where there is /dev/fuse.
#
#     bench/mount/by_hand.sh IMAGE DIR [PROGRAM]
#
# IMAGE is formatted anew, and DIR has to be an empty directory that all users can reach. Each step prints what went wrong, and the status is 1 then. What the program
# wrote to standard error is printed at the end. In `sh` a program in the background has /dev/null for its input, so /dev/fuse is
# opened as 3, which the shell closes once the program has it.
set -u
LC_ALL=C
export LC_ALL
image=$1 dir=$2
top=$(cd "$(dirname "$0")/../.." && pwd)
program=${3:-$top/release/snapfs}
[ "$(id -u)" = 0 ] || { echo "by_hand.sh: by root alone"; exit 1; }
[ -c /dev/fuse ] || { echo "by_hand.sh: there is no /dev/fuse"; exit 1; }
work=$(mktemp -d)
wrong=0
server=

ended() {
    if [ -n "$server" ]; then
        umount "$dir" 2>/dev/null || umount -l "$dir" 2>/dev/null
        wait "$server" 2>/dev/null
    fi
    rm -rf "$work"
}
trap ended EXIT

# A step and what it wants to print.
step() {
    name=$1 wanted=$2
    shift 2
    told=$("$@" 2>&1)
    if [ "$told" != "$wanted" ]; then
        printf '%s: wanted\n%s\nbut was\n%s\n' "$name" "$wanted" "$told"
        wrong=1
    fi
}

# The same as another user.
as() {
    setpriv --reuid="$1" --regid="$1" --clear-groups -- sh -c "$2"
}

"$program" mkfs "$image" 4096 >/dev/null || exit 1
exec 3<>/dev/fuse
mount -i -t fuse.snapfs -o nosuid,nodev,fd=3,rootmode=40000,user_id=0,group_id=0,allow_other,max_read=65536 "$image" "$dir" || exit 1
"$program" serve "$image" <&3 >&3 2>"$work/told" &
server=$!
exec 3>&-

step "the root" "" ls -A "$dir"
step "a file is made" "" sh -c "echo hello >'$dir/f'"
step "and read" hello cat "$dir/f"
step "it is appended to" "" sh -c "echo more >>'$dir/f'"
step "and has both" "hello
more" cat "$dir/f"
step "its attributes" "regular file 644 0 0 11 1" stat -c '%F %a %u %g %s %h' "$dir/f"
step "a directory" "" mkdir "$dir/d"
step "a file within" "" cp "$dir/f" "$dir/d/g"
step "a hard link" "" ln "$dir/d/g" "$dir/d/h"
step "two names" 2 stat -c %h "$dir/d/h"
step "a rename" "" mv "$dir/d/g" "$dir/d/i"
step "what is listed" "h i" sh -c "ls '$dir/d' | tr '\n' ' ' | sed 's/ \$//'"
head -c 300000 /dev/urandom >"$work/random"
step "many bytes" "" cp "$work/random" "$dir/random"
step "are the same" "" cmp "$work/random" "$dir/random"
step "cut" "" truncate -s 1000 "$dir/random"
step "to 1,000" 1000 stat -c %s "$dir/random"
step "a snapshot" "" mkdir "$dir/.snapshot/s"
step "a file is gone" "" rm "$dir/f"
step "but in the snapshot" "hello
more" cat "$dir/.snapshot/s/f"
step "another user may not write" "sh: 1: cannot create $dir/x: Permission denied" as 1001 "echo x >'$dir/x'"
step "who is given a directory" "" sh -c "mkdir '$dir/own' && chown 1001:1001 '$dir/own' && chmod 700 '$dir/own'"
step "writes there" "" as 1001 "echo mine >'$dir/own/m'"
step "and a third may not read" "cat: $dir/own/m: Permission denied" as 1002 "cat '$dir/own/m'"
if command -v setfacl >/dev/null; then
    step "an ACL" "" setfacl -m u:1002:rx "$dir/own"
    step "lets the third in" mine as 1002 "cat '$dir/own/m'"
    step "and is told" "user:1002:r-x" sh -c "getfacl -cpn '$dir/own' | grep 1002"
fi
step "a symbolic link is refused" "ln: failed to create symbolic link '$dir/l': Operation not permitted" ln -s f "$dir/l"
step "a tree" "" sh -c "mkdir -p '$dir/t/a/b' && for n in 1 2 3 4 5 6 7 8 9; do echo \$n >'$dir/t/a/b/'\$n; done"
step "is archived" 9 sh -c "tar -C '$dir/t' -cf - a | tar -tf - | grep -c '[1-9]\$'"
step "and removed" "" rm -r "$dir/t"
step "the snapshot is deleted" "" rmdir "$dir/.snapshot/s"
step "and gone" "ls: cannot access '$dir/.snapshot/s': No such file or directory" ls "$dir/.snapshot/s"
step "the rest" "d own random" sh -c "ls '$dir' | tr '\n' ' ' | sed 's/ \$//'"
step "room" "" sh -c "df '$dir' >/dev/null"

umount "$dir" || { echo "it isn't unmounted"; wrong=1; }
wait "$server"
status=$?
server=
[ "$status" = 0 ] || { echo "the server ended with $status"; wrong=1; }
cat "$work/told"
"$program" check "$image" || wrong=1
[ "$wrong" = 0 ] && echo "all is right"
exit "$wrong"
