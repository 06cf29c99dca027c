#!/usr/bin/env python3
"""Times a stat as who asks of a mount, and a message that changes nothing, beside their calls in the same run.

    bench/speed/serving.py

`measure_serving` is built by LLVM and run, over a disk in memory: a stat seven directories deep by user 0, the same by another user between a login and a
logout, and a GETATTR of that user from bytes to bytes beside its look and its three calls. Each time is the least of 300 rounds of
100, which take turns. The status is 1 where the stat of who asks takes over twice the stat alone, or the message over three times its calls.
"""

import subprocess
import sys
from pathlib import Path

TOP = Path(__file__).resolve().parents[2]
RATIOS = (("asked", "stat", 2), ("message", "looked", 3))


def main():
    subprocess.run([TOP / "bench" / "speed" / "program.py", "measure_serving"], check=True, stdout=subprocess.DEVNULL)
    told = subprocess.run([TOP / "bench" / "speed" / "out" / "measure_serving"], check=True, capture_output=True, text=True).stdout
    times = {line.split()[0]: int(line.split()[1]) for line in told.splitlines()}
    wrong = False
    for name, beside, most in RATIOS:
        ratio = times[name] / times[beside]
        wrong |= ratio > most
        print(f"{name}: {times[name]} ns, {ratio:.2f} times {beside}, which takes {times[beside]} ns")
    return int(wrong)


if __name__ == "__main__":
    sys.exit(main())
