#!/bin/bash
# Times changes through overlays, and look-ups through two of them, by runs of the part `memory` of the test program
# sn_tests. Run by hand.
#
# Prints the time of 1,000 makes of a directory, each laid over an overlay of those before, beside 1,000 mkdir in
# the tree in memory, where the program also walks and checks access; and the time of 10,000 look-ups of a name
# through two overlays of 300 names each, beside as many through two of none. Each time is the least of ten runs,
# without that of a run with an empty table or script.
set -eu
top=$(cd "$(dirname "$0")/../.." && pwd)
work=$(mktemp -d)
trap 'rm -rf "$work"' EXIT
(cd "$top/crates/sn_tests" && "$top/.ci/rt" run -- data memory > "$work/log" 2>&1) || { tail -n 20 "$work/log"; exit 1; }
"$top/bench/speed/program.py" measure_runs

python3 - "$top" "$work" <<'P'
import subprocess
import sys
import time
from pathlib import Path

top, work = Path(sys.argv[1]), Path(sys.argv[2])
overlays = top / "crates/sn_tests/out/sn_tests"
runs = top / "bench/speed/out/measure_runs"


def least(*command):
    times = []
    for _ in range(10):
        start = time.perf_counter()
        subprocess.run(command, stdout=subprocess.DEVNULL, stderr=subprocess.DEVNULL, check=True)
        times.append(time.perf_counter() - start)
    return min(times)


def table(steps, answers):
    """The time of a table of one case over that of an empty one."""
    tables = work / "data" / "memory"
    tables.mkdir(parents=True, exist_ok=True)
    for name in ("file_bytes.txt", "descriptors.txt", "changes.txt"):
        (tables / name).write_text("")
    run = (overlays, work / "data", "memory")
    empty = least(*run)
    (tables / "changes.txt").write_text(" ".join(steps) + " => " + " ".join(answers) + "\n")
    return least(*run) - empty


def in_memory():
    """The time of ten times 100 mkdir in the tree in memory."""
    told = subprocess.run([runs, "time"], capture_output=True, text=True, check=True).stdout
    rows = {count: int(memory) for count, _, memory in (line.split() for line in told.splitlines())}
    return 10 * (rows["100"] - rows["0"]) / 1e9


makes = [f"make:2:n{i}:{i}:directory" for i in range(3, 1003)]
through = table(makes + ["name:2:n1002"], ["1002"])
plain = in_memory()
print(f"1,000 makes through an overlay: {through * 1e3:.1f} ms, {through / plain:.2f} of the tree in memory ({plain * 1e3:.1f} ms)")

asks = [f"name:2:n{3 + i % 600}" for i in range(10000)]
halves = makes[:300] + ["settle"] + makes[300:600]
known = table(halves + asks[:1], ["3"])
found = table(halves + asks, [str(3 + i % 600) for i in range(10000)]) - known
none = table(asks, ["none"] * 10000)
print(f"10,000 look-ups through two overlays of 300: {found * 1e3:.1f} ms, {found / none:.2f} of two that are empty ({none * 1e3:.1f} ms)")
P
