#!/bin/bash
# Runs the commands of docs/FIRST_DAY.md, and compares what they answer with the page.
#
#     bench/mount/first_day.sh [PROGRAM]
#
# Run by hand as root where there is /dev/fuse. In its namespace `/mnt` is what the page mounts, and anna and ben are users 1001 and 1002. Spaces
# and the number of free blocks aren't compared.
# shellcheck source-path=SCRIPTDIR source=shared.sh
. "$(dirname "$0")/shared.sh"

# Accounts of this namespace, with two users more.
for file in passwd group; do
    awk -F: '$3 != 1001 && $3 != 1002 && $1 != "anna" && $1 != "ben"' "/etc/$file" >"$work/$file"
done
printf '%s:x:%s:%s::/:/bin/sh\n' anna 1001 1001 ben 1002 1002 >>"$work/passwd"
printf '%s:x:%s:\n' anna 1001 ben 1002 >>"$work/group"
chmod 644 "$work/passwd" "$work/group"
mount --bind "$work/passwd" /etc/passwd
mount --bind "$work/group" /etc/group
cp -r "$top/docs" "$checkout/docs"
cd "$checkout" || exit 1

# What is compared of an answer.
plain() {
    sed 's|[ \t][ \t]*| |g; s|^clean [0-9]*$|clean N|; /^$/d' "$1"
}

# The command of who is before it.
carry_out() {
    case $1 in
        '# '*) bash -c "${1#"# "}" ;;
        *'$ '*) setpriv --reuid="${1%%"$ "*}" --regid="${1%%"$ "*}" --init-groups bash -c "${1#*"$ "}" ;;
    esac
}

# The command before, once its answer on the page was read.
compare() {
    if [ -n "$command" ]; then
        cases=$((cases + 1))
        carry_out "$command" >"$work/found" 2>&1 </dev/null
        if ! diff <(plain "$work/wanted") <(plain "$work/found") >"$work/difference"; then
            is_wrong "$command" "$(cat "$work/difference")"
        fi
    fi
    command=
    : >"$work/wanted"
}

command=
compare
while IFS= read -r line; do
    case $line in
        '    # '* | '    anna$ '* | '    ben$ '*)
            compare
            command=${line#    }
            ;;
        '    '*) printf '%s\n' "${line#    }" >>"$work/wanted" ;;
        *) compare ;;
    esac
done <docs/FIRST_DAY.md
compare
umount -l /etc/passwd /etc/group
finish
