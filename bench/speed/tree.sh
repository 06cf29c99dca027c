#!/bin/bash
# Times block trees and directories on a device in memory, by runs of the programs `measure_plans` and `measure_directories`
# and of the part `trees` of the test program sn_tests. Run by hand; the memory wants gcc.
#
# Prints the time of reading 64 MiB through lent blocks, in parts of 64 KiB, beside a copy of as many bytes; of a plan
# of one dirty block in files of 64 KiB, of which it makes one new block, and of 68 KiB and 64 MiB, of which it makes an
# indirect block too, from the block's bytes on and without its making; of a look-up in directories of 100, 10,000 and
# 65,535 names, each name as often; of a plan that takes 254 names out of a directory of 65,024, or puts them back, beside a
# reading of all its names; and the most memory that is held at a time while the plan in 64 MiB is made, over
# that of a run that plans nothing. Each time is the least of several turns, those of look-ups without that of a run
# with one.
set -eu
top=$(cd "$(dirname "$0")/../.." && pwd)
. "$top/bench/speed/peak.sh"
work=$(mktemp -d)
trap 'rm -rf "$work"' EXIT
(cd "$top/crates/sn_tests" && "$top/.ci/rt" run -- data trees > "$work/log" 2>&1) || { tail -n 20 "$work/log"; exit 1; }
"$top/bench/speed/program.py" measure_plans
"$top/bench/speed/program.py" measure_directories
plans=$top/bench/speed/out/measure_plans

"$top/bench/speed/out/measure_directories" 65024 254 | awk '{
    printf "%d names taken out of %d: %.2f of a reading of all (%.2f ms); put back: %.2f\n", $2, $1, $4 / $3, $3 / 1e6, $5 / $3
}'

"$plans" time > "$work/times"
awk '{ t[$1, $2] = $3 } END {
    all = t["read", 16384]
    printf "reading 64 MiB: %.1f ms, %.2f of a copy; %.0f MB/s\n", all / 1e6, all / t["copy", 16384], 67108864000 / all
    whole = t["whole", 16384]
    plan = t["plan", 16384]
    printf "a plan of one dirty block, from its bytes on: %.2f us in 64 MiB, %.2f of that in 64 KiB (%.2f us)\n", whole / 1000, whole / t["whole", 16], t["whole", 16] / 1000
    printf "without the making of the block and of the build: %.2f us in 64 MiB, of two new blocks, %.2f of that in 68 KiB, of two too,", plan / 1000, plan / t["plan", 17]
    printf " and %.2f of that in 64 KiB, of one (%.2f us)\n", plan / t["plan", 16], t["plan", 16] / 1000
}' "$work/times"

peak_into "$work"
plan=$(peak "$plans" once plan)
nothing=$(peak "$plans" once nothing)
echo "memory of that plan, with its dirty block and its map: $((plan - nothing)) bytes at most"

python3 - "$top" "$work" <<'P'
import itertools
import string
import subprocess
import sys
import time
from pathlib import Path

top, work = Path(sys.argv[1]), Path(sys.argv[2])
trees = top / "crates/sn_tests/out/sn_tests"


def least(folder, turns):
    times = []
    for _ in range(turns):
        start = time.perf_counter()
        subprocess.run([trees, folder, "trees"], stdout=subprocess.DEVNULL, stderr=subprocess.DEVNULL, check=True)
        times.append(time.perf_counter() - start)
    return min(times)


def table(names, asked):
    """A case of one directory, in which names are looked up."""
    records = [f"{2 + i % 65534}:{name}" for i, name in enumerate(names)]
    blocks = ["+".join(records[i:i + 682]) for i in range(0, len(records), 682)]
    listed = " ".join(f"{name} {2 + i % 65534}" for name, i in sorted((name, i) for i, name in enumerate(names)))
    found = " ".join(str(2 + i % 65534) for i in asked)
    folder = work / "data"
    tables = folder / "trees"
    tables.mkdir(parents=True, exist_ok=True)
    (tables / "inodes.txt").write_text("")
    (tables / "directories.txt").write_text(
        f"{','.join(names[i] for i in asked)} {' '.join(blocks)} => {len(names)}, not empty: {listed}; {found}\n")
    return folder


def lookup(count, times):
    """The time of one look-up, over names that lie all over the directory."""
    names = ["".join(name) for name in itertools.islice(itertools.product(string.ascii_letters + string.digits, repeat=3), count)]
    asked = [i * 7919 % count for i in range(times)]
    one = least(table(names, asked[:1]), 5)
    return (least(table(names, asked), 5) - one) / (times - 1)


small, middle, large = lookup(100, 40_000), lookup(10_000, 4_000), lookup(65_535, 1_000)
print(f"a look-up in 100 names: {small * 1e6:.2f} us; in 10,000: {middle * 1e6:.1f} us, {middle / small:.0f} of it; "
      f"in 65,535: {large * 1e6:.0f} us, {large / middle:.2f} of that in 10,000")
P
