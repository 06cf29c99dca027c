#!/bin/bash
# Times whole runs of the program, with their peak memory: as many directories as the log holds, and scripts of
# 16 MiB. Run by hand, from any folder: builds the program where it isn't up to date, and works in a folder
# that it removes.
#
# Prints for each script the least time of five runs, how many times that is what awk takes to go through the same
# lines and print them, and the peak beside the script's size; and what the wrapper adds to a run.
set -eu
top=$(cd "$(dirname "$0")/../.." && pwd)
program=$top/crates/sn_bin/out/sn_bin
work=$(mktemp -d)
trap 'rm -rf "$work"' EXIT
: > "$work/nothing"
"$top/snapfs" --build
"$program" mkfs "$work/image" 4096 > /dev/null

mkdirs() {
    awk -v count="$1" 'BEGIN { print "0 login 0 0 -"; for (i = 0; i < count; i++) printf "0 mkdir /d%05d 0755\n", i }'
}

# The lines of a script of just under 16 MiB.
many() {
    yes "$1" | head -c 16777000 | head -n -1
}

mkdirs 127 > "$work/mkdirs"
{ many '0 stat /'; echo bad; } > "$work/read_alone"
many '0 stat /' > "$work/nobody_logged_in"
{ echo '0 login 0 0 -'; many '0 stat /'; } > "$work/statuses"
{ printf '0 stat /'; head -c 16777000 /dev/zero | tr '\0' a; echo; } > "$work/one_line"

# The least time of five runs of a command, each with an image that was made anew, in microseconds.
least() {
    local best=0 begun taken
    for _ in 1 2 3 4 5; do
        "$program" mkfs "$work/image" 4096 > /dev/null
        begun=${EPOCHREALTIME/./}
        "$@" > /dev/null 2>&1 || true
        taken=$((${EPOCHREALTIME/./} - begun))
        if [ "$best" -eq 0 ] || [ "$taken" -lt "$best" ]; then best=$taken; fi
    done
    echo "$best"
}

declare -A times
printf '%-18s %10s %9s %8s %10s %10s\n' script bytes ms run/awk 'peak KiB' peak/size
for script in mkdirs read_alone nobody_logged_in statuses one_line; do
    times[$script]=$(least "$program" run "$work/image" "$work/$script")
    bytes=$(wc -c < "$work/$script")
    lines=$(least awk 1 "$work/$script")
    "$program" mkfs "$work/image" 4096 > /dev/null
    /usr/bin/time -o "$work/peak" -f %M "$program" run "$work/image" "$work/$script" > /dev/null 2>&1 || true
    awk -v name="$script" -v bytes="$bytes" -v micros="${times[$script]}" -v peak="$(tail -n 1 "$work/peak")" -v lines="$lines" \
        'BEGIN { printf "%-18s %10d %9.1f %8.1f %10d %10.1f\n", name, bytes, micros / 1000, micros / lines, peak, peak * 1024 / bytes }'
done
direct=$(least "$program" run "$work/image" "$work/nothing")
wrapped=$(SNAPFS_BUILT=1 least "$top/snapfs" run "$work/image" "$work/nothing")
awk -v d="$direct" -v w="$wrapped" 'BEGIN { printf "the wrapper adds %.1f ms\n", (w - d) / 1000 }'
