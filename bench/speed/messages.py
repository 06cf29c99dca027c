#!/usr/bin/env python3
"""Times a message of 28 KiB, decoded and answered, beside a copy of its bytes in the same run.

    bench/speed/messages.py

`measure_messages` is built by LLVM and run. A WRITE brings 28,672 bytes and is answered by their count; a READ is answered by so
many bytes. Each time is the least of 400 rounds of 200 calls, in which the calls and the copies take turns. The status is 1 where
either takes over three times as long as the copy.
"""

import subprocess
import sys
from pathlib import Path

TOP = Path(__file__).resolve().parents[2]
MOST = 3


def main():
    subprocess.run([TOP / "bench" / "speed" / "program.py", "measure_messages"], check=True, stdout=subprocess.DEVNULL)
    told = subprocess.run([TOP / "bench" / "speed" / "out" / "measure_messages"], check=True, capture_output=True, text=True).stdout
    times = {line.split()[0]: int(line.split()[1]) for line in told.splitlines()}
    wrong = False
    for name in ("write", "read"):
        ratio = times[name] / times["copy"]
        wrong |= ratio > MOST
        print(f"{name}: {times[name]} ns, {ratio:.2f} times the copy of {times['copy']} ns")
    return int(wrong)


if __name__ == "__main__":
    sys.exit(main())
