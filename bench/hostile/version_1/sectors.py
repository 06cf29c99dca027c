#!/usr/bin/env python3
"""Prints the sectors of an image that aren't zeros: a line for each, with its number and its bytes up to the last that isn't 0.

    bench/hostile/version_1/sectors.py IMAGE
"""

import sys
from pathlib import Path

SECTOR = 512


def main():
    image = Path(sys.argv[1]).read_bytes()
    for at in range(0, len(image), SECTOR):
        front = image[at : at + SECTOR].rstrip(b"\0")
        if front:
            print(at // SECTOR, front.hex())


if __name__ == "__main__":
    main()
