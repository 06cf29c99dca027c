#!/usr/bin/env python3
"""Reads what bench/mount/speed.sh measured, and prints a line for each measurement.

A line of the input is a round, two words of what was done, the side and its milliseconds. The first side of a measurement is the mount.
"""

import sys
from collections import defaultdict
from statistics import median


def main():
    taken = defaultdict(lambda: defaultdict(list))
    for line in sys.stdin:
        _round, thing, way, side, time = line.split()
        if int(time):
            taken[f"{thing} {way}"][side].append(int(time))
    for what, sides in taken.items():
        (_, own), *others = sides.items()
        parts = [f"{what}: {median(own) / 1000:.2f} s"]
        for side, theirs in others:
            ratios = [one / other for one, other in zip(own, theirs)]
            parts.append(f"{median(own) / median(theirs):.1f} times {side} ({min(ratios):.1f} to {max(ratios):.1f})")
        print(", ".join(parts))


if __name__ == "__main__":
    main()
