#!/bin/sh
# Tries a program on the examples: `.ci/self_test.sh PROGRAM`. Each script of examples/ has to be answered as the replies beside it
# say, and each line of images.txt and crashes.txt with the status and the lines that follow its ` => `. What isn't is printed.
# The last line is 'N passed, M failed'.
#
# What those lines have for a person on a terminal begins with the name of a file, and isn't written here.
set -u
program=$1
examples=$(CDPATH='' cd -- "$(dirname -- "$0")/../examples" && pwd -P) || exit 1
work=$(mktemp -d) || exit 1
trap 'rm -rf "$work"' EXIT
cd "$work" && ln -s "$examples" examples || exit 1
passed=0 failed=0

# count WHAT WANTED FOUND
count() {
    if [ "$2" = "$3" ]; then
        passed=$((passed + 1))
    else
        failed=$((failed + 1))
        printf 'wrong: %s\n  wanted: %s\n  found: %s\n' "$1" "$2" "$3"
    fi
}

# Runs the program with these words, and gives its status and its lines, behind commas.
ended() {
    "$program" "$@" >out 2>err
    status=$?
    { printf '%s\n' "$status" && cat out err; } | awk '{ printf "%s%s", (NR > 1 ? ", " : ""), $0 }'
}

# put FILE AT HEX: sets bytes of a file.
put() {
    bytes=
    rest=$3
    while [ -n "$rest" ]; do
        byte=${rest%"${rest#??}"}
        rest=${rest#??}
        bytes=$bytes\\$(printf '%03o' "0x$byte")
    done
    # (the format is octal bytes alone)
    # shellcheck disable=SC2059
    printf "$bytes" | dd of="$1" bs=1 seek="$2" conv=notrunc 2>/dev/null
}

# One line of a file of commands.
carry_out() {
    case $1 in
        '' | '#'*) ;;
        *' => '*)
            words=${1%%" => "*}
            wanted=$(printf '%s\n' "${1#*" => "}" | sed 's/, snapfs: [^ ]*: .*//')
            # shellcheck disable=SC2086
            count "$words" "$wanted" "$(ended $words)"
            ;;
        *' << '*) printf '%s\n' "${1#*" << "}" | tr '|' '\n' | sed '/^$/d' >"${1%%" << "*}" ;;
        *' put '*)
            # shellcheck disable=SC2086
            set -- $1
            put "$1" "$3" "$4"
            ;;
        *) count "$1" "a command" "none" ;;
    esac
}

for script in examples/*.snap; do
    "$program" mkfs example.img 4096 >/dev/null
    wanted=$(cat "${script%.snap}.replies" && echo "status 0")
    found=$("$program" run example.img "$script" 2>&1 && echo "status $?")
    count "$script" "$wanted" "$found"
done
for commands in images crashes; do
    while IFS= read -r line; do
        carry_out "$line"
    done <"$examples/$commands.txt"
done
printf '%s passed, %s failed\n' "$passed" "$failed"
[ "$failed" -eq 0 ]
