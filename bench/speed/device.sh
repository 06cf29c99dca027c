#!/bin/sh
# The speed of the devices: a million sector writes and reads in memory beside copies of as many sectors, and 64 MiB through
# a file in sectors beside `dd bs=64k` on the same file, which is how much the device gathers, with the calls of the
# system where strace is there, by runs of the program `measure_devices`. Usage: bench/speed/device.sh
set -eu
top=$(cd "$(dirname "$0")/../.." && pwd)
work=$(mktemp -d)
trap 'rm -rf "$work"' EXIT

"$top/bench/speed/program.py" measure_devices
bench=$top/bench/speed/out/measure_devices

# seconds COMMAND..: how long it takes
seconds() {
    from=$(date +%s.%N)
    "$@" > /dev/null 2>&1
    to=$(date +%s.%N)
    echo "$from $to" | awk '{ printf "%.3f", $2 - $1 }'
}

# calls COMMAND..: how many calls of the system it makes
calls() {
    if command -v strace > /dev/null; then
        strace -f -c -o "$work/strace" "$@" > /dev/null 2>&1
        awk '$NF == "total" { print $4 }' "$work/strace"
    else
        echo "?"
    fi
}

echo "in memory, 16 rounds of 65,536 sectors: $("$bench" memory 16)"
file=$work/image
for round in 1 2 3 4 5; do
    ours=$(seconds "$bench" write "$file")
    dd=$(seconds dd if=/dev/zero of="$file" bs=64k count=1024 conv=fdatasync)
    echo "file, write 64 MiB: $ours s, dd $dd s, ratio $(echo "$ours $dd" | awk '{ printf "%.2f", $1 / $2 }')"
    "$bench" write "$file"
    ours=$(seconds "$bench" read "$file")
    dd=$(seconds dd if="$file" of=/dev/null bs=64k)
    echo "file, read 64 MiB: $ours s, dd $dd s, ratio $(echo "$ours $dd" | awk '{ printf "%.2f", $1 / $2 }')"
done
echo "calls of the system: write $(calls "$bench" write "$file"), read $(calls "$bench" read "$file")"
