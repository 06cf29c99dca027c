#!/bin/bash
# Times durable changes on a file, beside SQLite and the machine's own file system: ten thousand directories, a thousand of
# them, a thousand files of 100 bytes, and 64 MiB in pieces of 30,000 bytes, where each call that is answered is on the disk.
# Run by hand, from any folder: it wants python3, and strace to count, builds the program where it isn't up to date, and
# works in a folder that it removes, below the one that is given, or below the one for temporary files. That should be on the
# disk that is to be measured, and not in memory, and have a gigabyte.
#
# A directory is one change, and a file two: it is made, and then has its bytes. snapfs has one image of 32,768 blocks for each
# row; to format it isn't counted, to mount it is. Where its log is full it makes a consistency point. The pieces go to it in
# scripts of 270, since a script is no longer than 16 MiB, so with a mount for each. SQLite has a row for each directory,
# file and piece, and a transaction for each change, with synchronous FULL, once with a rollback journal and once with a
# write-ahead log. The file system has fsync of the file, and of its folder where a name is new.
#
# Prints for each the wall time, and how many writes and syncs it made of its files, counted in a run of its own.
set -eu
top=$(cd "$(dirname "$0")/../.." && pwd)
program=$top/crates/sn_bin/out/sn_bin
work=$(mktemp -d -p "${1:-${TMPDIR:-/tmp}}")
trap 'rm -rf "$work"' EXIT
"$top/snapfs" --build
"$program" mkfs "$work/fresh" 32768 > /dev/null

# scripts KIND COUNT: the scripts of so many objects in all; how many there are
cat > "$work/scripts.py" <<'P'
import sys
kind, count, work = sys.argv[1], int(sys.argv[2]), sys.argv[3]
each = {"directories": 100_000, "files": 100_000, "pieces": 270}[kind]
scripts = 0
for first in range(0, count, each):
    lines = ["0 login 0 0 -"]
    if kind == "pieces":
        lines.append("0 open /f wac 0644")
    for i in range(first, min(first + each, count)):
        if kind == "directories":
            lines.append(f"0 mkdir /d{i:06} 0755")
        elif kind == "files":
            lines += [f"0 open /f{i:06} wc 0644", "0 write 0 " + "55" * 100, "0 close 0"]
        else:
            lines.append("0 write 0 " + "55" * min(30_000, (1 << 26) - 30_000 * i))
    with open(f"{work}/script-{scripts}", "w") as script:
        script.write("\n".join(lines) + "\n")
    scripts += 1
print(scripts)
P

cat > "$work/snapfs.sh" <<'S'
# PROGRAM FOLDER SCRIPTS IMAGE
for ((at = 0; at < $3; at++)); do "$1" run "$4" "$2/script-$at" >> "$2/replies"; done
S

cat > "$work/sqlite.py" <<'P'
import sqlite3, sys
kind, count, journal, path = sys.argv[1], int(sys.argv[2]), sys.argv[3], sys.argv[4]
db = sqlite3.connect(path, isolation_level=None)
db.execute(f"pragma journal_mode={journal}")
db.execute("pragma synchronous=full")
db.execute("create table objects (name text primary key, kind text, mode integer, bytes blob)")
for i in range(count):
    if kind == "directories":
        db.execute("insert into objects values (?, 'd', 493, null)", (f"/d{i:06}",))
    elif kind == "files":
        db.execute("insert into objects values (?, 'f', 420, x'')", (f"/f{i:06}",))
        db.execute("update objects set bytes = ? where name = ?", (b"U" * 100, f"/f{i:06}"))
    else:
        piece = b"U" * min(30_000, (1 << 26) - 30_000 * i)
        db.execute("insert into objects values (?, 'f', 420, ?)", (f"/f/{i:06}", piece))
db.close()
P

cat > "$work/kernel.py" <<'P'
import os, sys
kind, count, path = sys.argv[1], int(sys.argv[2]), sys.argv[4]
os.mkdir(path)
folder = os.open(path, os.O_RDONLY)
whole = os.open(f"{path}/f", os.O_WRONLY | os.O_CREAT, 0o644)
os.fsync(whole)
os.fsync(folder)
for i in range(count):
    if kind == "directories":
        os.mkdir(f"{path}/d{i:06}", 0o755)
        os.fsync(folder)
    elif kind == "files":
        file = os.open(f"{path}/f{i:06}", os.O_WRONLY | os.O_CREAT, 0o644)
        os.fsync(file)
        os.fsync(folder)
        os.write(file, b"U" * 100)
        os.fsync(file)
        os.close(file)
    else:
        os.write(whole, b"U" * min(30_000, (1 << 26) - 30_000 * i))
        os.fsync(whole)
P

# counted COMMAND..: its writes and syncs
counted() {
    if ! command -v strace > /dev/null; then echo "- -"; return; fi
    strace -f -qq -o "$work/trace" -e trace=write,writev,pwrite64,pwritev,fsync,fdatasync,mkdir,mkdirat "$@"
    awk '/(write|writev|pwrite64|pwritev|mkdir|mkdirat)\(/ && !/write\([12],/ { writes++ } /(fsync|fdatasync)\(/ { syncs++ } END { print writes + 0, syncs + 0 }' "$work/trace"
}

# fresh PATH: a new image there, where one is wanted
fresh() {
    rm -rf "$1"
    if [ "$name" = snapfs ]; then cp "$work/fresh" "$1"; fi
    sync
}

# row NAME KIND COUNT COMMAND..: one line of the table; a path stands behind the command's words
row() {
    local name=$1 kind=$2 count=$3 begun taken
    shift 3
    fresh "$work/store"
    begun=${EPOCHREALTIME/./}
    "$@" "$work/store"
    taken=$((${EPOCHREALTIME/./} - begun))
    fresh "$work/store"
    read -r writes syncs < <(counted "$@" "$work/store")
    rm -rf "$work"/store*
    awk -v name="$name" -v kind="$kind" -v count="$count" -v micros="$taken" -v writes="$writes" -v syncs="$syncs" \
        'BEGIN { printf "%-16s %6d %-12s %10.0f %12.0f %8s %8s\n", name, count, kind, micros / 1000, micros / count, writes, syncs }'
}

printf '%-16s %19s %10s %12s %8s %8s\n' store objects ms us/object writes syncs
for objects in '10000 directories' '1000 directories' '1000 files' '2237 pieces'; do
    read -r count kind <<< "$objects"
    scripts=$(python3 "$work/scripts.py" "$kind" "$count" "$work")
    : > "$work/replies"
    row snapfs "$kind" "$count" bash "$work/snapfs.sh" "$program" "$work" "$scripts"
    if grep -q err "$work/replies"; then echo "a call was refused" && exit 1; fi
    row sqlite-rollback "$kind" "$count" python3 "$work/sqlite.py" "$kind" "$count" delete
    row sqlite-wal "$kind" "$count" python3 "$work/sqlite.py" "$kind" "$count" wal
    row kernel "$kind" "$count" python3 "$work/kernel.py" "$kind" "$count" -
done
