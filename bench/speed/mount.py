#!/usr/bin/env python3
"""Times the mount of an image with 5,000 files, beside that of an empty image and beside reading its bytes.

    bench/speed/mount.py [FILES [BYTES [BLOCKS]]]

Run by hand: builds the program where it isn't up to date. The image is written by `made_image.py`, so by docs/FORMAT.md alone: it
has FILES files (5,000) of BYTES bytes (3,000) in directories of a hundred names each, on BLOCKS blocks (16,384, which is 64
MiB). What is mounted is read back first: each listing and the bytes of each tenth file. Each time is the least of seven.
"""

import subprocess
import sys
import tempfile
import time
from pathlib import Path

sys.dont_write_bytecode = True
sys.path.append(str(Path(__file__).resolve().parents[1] / "plain"))

from made_image import Tree, write_image  # noqa: E402

TOP = Path(__file__).resolve().parents[2]
PROGRAM = TOP / "crates/sn_bin/out/sn_bin"
ROUNDS = 7
NAMES = 100


def data_of(number, size):
    """The bytes of a file, which aren't those of another."""
    return (b"%08d" % number) * (size // 8 + 1)


def tree_of(files, size):
    """The tree, and the script that reads it back with the replies to it."""
    tree, script, wanted = Tree(), ["0 login 0 0 -"], ["ok"]
    for first in range(0, files, NAMES):
        folder = f"d{first // NAMES:04}"
        directory, names = tree.add_directory(2, folder), []
        for number in range(first, min(first + NAMES, files)):
            name, data = f"f{number:06}", data_of(number, size)[:size]
            tree.add_file(directory, name, data)
            names.append(name)
            if number % 10 == 0:
                script += [f"0 open /{folder}/{name} r", f"0 read 0 {size}", "0 close 0"]
                wanted += ["ok 0", f"ok {data.hex()}", "ok"]
        script.append(f"0 readdir /{folder}")
        wanted.append("ok " + " ".join(names))
    return tree, script, wanted


def run(image, script):
    return subprocess.run([PROGRAM, "run", image, script], capture_output=True, check=True, text=True).stdout


def least(work):
    """The least time of some rounds, in milliseconds."""
    taken = []
    for _ in range(ROUNDS):
        begun = time.perf_counter()
        work()
        taken.append(time.perf_counter() - begun)
    return min(taken) * 1000


def main():
    files, size, blocks = [int(word) for word in sys.argv[1:]] + [5000, 3000, 16384][len(sys.argv) - 1 :]
    with tempfile.TemporaryDirectory() as work:
        work = Path(work)
        subprocess.run([TOP / "snapfs", "--build"], check=True)
        subprocess.run([PROGRAM, "mkfs", work / "empty", str(blocks)], check=True, stdout=subprocess.DEVNULL)
        tree, script, wanted = tree_of(files, size)
        write_image(work / "image", tree, blocks)
        (work / "none").write_text("")
        (work / "script").write_text("".join(f"{line}\n" for line in script))
        if run(work / "image", work / "script").splitlines() != wanted:
            sys.exit("what was read isn't what was written")
        begun = least(lambda: subprocess.run([PROGRAM], capture_output=True))
        rows = {
            "empty image": least(lambda: run(work / "empty", work / "none")),
            f"{files} files": least(lambda: run(work / "image", work / "none")),
            "reading the image": least(lambda: (work / "image").read_bytes()),
        }
    print(f"{'what':<20} {'ms':>8}")
    for name, taken in rows.items():
        print(f"{name:<20} {taken if name.startswith('reading') else taken - begun:>8.1f}")


main()
