#!/usr/bin/env python3
"""Times the program on large and hostile images, and counts the memory that it holds.

    bench/hostile/large.py times [--snapfs PATH]     how long a check and a run take, beside those of a new image
    bench/hostile/large.py memory [--snapfs PATH]    how much memory they hold at most, beside the bound of docs/MEMORY.md

Run by hand: builds the program where it isn't up to date, or takes the one of PATH. Set TMPDIR to a file system in memory, as
/dev/shm, since each run syncs. `memory` wants gcc, since what is held is counted by the small library of peak.sh.

The images have 65,536 blocks and are written by docs/FORMAT.md, without the program. Each has to be told as it is named here, by the
check and by a run without a call, within a minute. A time is that of the processor, the least of seven, and told as so many times
that of a new image. What it takes more is told for each block in use, as so many times what it is for an image of 5,000 files
of one block; more than two dozen times that is wrong: a block may hold hundreds of names, and the bytes of files are hardly read.
"""

import argparse
import resource
import shutil
import struct
import subprocess
import sys
import tempfile
from pathlib import Path

sys.dont_write_bytecode = True
sys.path.append(str(Path(__file__).resolve().parents[1] / "plain"))

from images import program_at  # noqa: E402
from made_image import BLOCK, POINTERS, Image, Tree, image_of  # noqa: E402

TOP = Path(__file__).resolve().parents[2]
BLOCKS, LARGEST = 65_536, 1_048_576
ROUNDS, SECONDS, MOST = 7, 60, 24
MEBIBYTE = 1 << 20
GIBIBYTE = 1 << 30
INODES_AT = 128


# ---- images


class Sparse(Image):
    """An image that is written with holes where nothing was put."""

    @staticmethod
    def of(tree, blocks=BLOCKS):
        image = image_of(tree, blocks)
        image.__class__ = Sparse
        directories = [node[3] for node in tree.nodes.values() if node[0] == 2]
        image.names = max(sum(NAME + len(name) for _, name in names) for names in directories)
        return image

    def write(self, path):
        with open(path, "wb") as file:
            for at, data in sorted(self.written.items()):
                file.seek(at * BLOCK)
                file.write(data)
            file.truncate(self.blocks * BLOCK)

    def first_inodes(self):
        """The first block of the inode file, whose root has no levels here."""
        return struct.unpack_from("<I", self.written[1], 40)[0]

    def set_inode(self, number, record):
        """Puts a record of the first block of inodes in the place of another."""
        at = self.first_inodes()
        data = bytearray(self.written[at])
        data[INODES_AT * number : INODES_AT * (number + 1)] = record
        self.put(at, data)

    def mark(self):
        """Writes the map anew: each block that was taken is in use."""
        first = 68 + 2 * self.map_blocks
        words = b"".join(struct.pack("<I", first <= block < self.next) for block in range(self.next))
        for at in range(0, len(words), BLOCK):
            self.put(4 + at // BLOCK, words[at : at + BLOCK])


def record(kind, size, pointers, links=1):
    return struct.pack("<BBHH2xIIQI", kind, 0, 0o755, links, 0, 0, size, 0).ljust(64, b"\0") + struct.pack("<16I", *pointers)


def ordinary():
    """5,000 files of one block, in directories of a hundred names each."""
    tree = Tree()
    for first in range(0, 5000, 100):
        directory = tree.add_directory(2, f"d{first // 100:04}")
        for number in range(first, first + 100):
            tree.add_file(directory, f"f{number:06}", (b"%08d" % number) * 375)
    return Sparse.of(tree)


def with_directory(tree_of):
    """An image with a directory `d` of number 3, whose record is put by hand."""
    tree = Tree()
    tree.add_directory(2, "d")
    image = Sparse.of(tree)
    image.set_inode(3, tree_of(image))
    image.mark()
    return image


def hole():
    """A directory that claims 64 MiB, of which one block is there."""
    return with_directory(lambda image: record(2, 64 * MEBIBYTE, [image.take(struct.pack("<I", image.take(b""))), *[0] * 15]))


def far_hole():
    """A directory that claims 64 GiB, of which one block is there, by two levels of indirect blocks."""
    return with_directory(lambda image: record(2, 64 * GIBIBYTE, [below(image, below(image, image.take(b""), 0), 0), *[0] * 15]))


def below(image, pointer, place):
    """A block of pointers that are 0 but for one at a place."""
    pointers = [0] * POINTERS
    pointers[place] = pointer
    return image.take(struct.pack(f"<{POINTERS}I", *pointers))


def far():
    """A file of 64 GiB, of which the last byte's block is there."""
    tree = Tree()
    tree.add_file(2, "f", b"")
    image = Sparse.of(tree)
    last = POINTERS - 1
    image.set_inode(3, record(1, 64 * GIBIBYTE, [*[0] * 15, below(image, below(image, image.take(bytes(BLOCK - 1) + b"z"), last), last)]))
    image.mark()
    return image


def deep_hole():
    """One whose sixteen indirect blocks are there, and all blocks of names but the last."""

    def tree_of(image):
        names = [image.take(b"") for _ in range(16 * POINTERS - 1)] + [0]
        levels = (names[at : at + POINTERS] for at in range(0, len(names), POINTERS))
        return record(2, 64 * MEBIBYTE, [image.take(struct.pack(f"<{POINTERS}I", *level)) for level in levels])

    return with_directory(tree_of)


def names():
    """A file in 10,000 names."""
    tree = Tree()
    file = tree.add_file(2, "n00000", b"data" * 3000)
    for number in range(1, 10_000):
        tree.add_link(2, f"n{number:05}", file)
    return Sparse.of(tree)


def deep():
    """A tree a thousand directories deep."""
    tree, directory = Tree(), 2
    for _ in range(1_000):
        directory = tree.add_directory(directory, "d")
    return Sparse.of(tree)


def numbers():
    """All 65,534 numbers in use, by files in one directory."""
    tree = Tree()
    for number in range(3, 65_536):
        tree.add_file(2, f"{number:x}", b"")
    return Sparse.of(tree)


def long_names():
    """As many files as there may be, in one directory, under the longest names."""
    tree = Tree()
    for number in range(3, 65_536):
        tree.add_file(2, f"{number:0255}", b"")
    return Sparse.of(tree)


def one_pointer():
    """An inode file whose sixteen pointers lead to one block."""
    image = Sparse.of(Tree())
    body = bytearray(image.written[1])
    struct.pack_into("<Q16I", body, 32, 16 * BLOCK, *[image.first_inodes()] * 16)
    image.put(1, body)
    return image


def one_block():
    """A file of 64 MiB whose pointers all lead to one block, through one indirect block."""

    def tree_of(image):
        data = image.take(b"")
        level = image.take(struct.pack(f"<{POINTERS}I", *[data] * POINTERS))
        return record(1, 64 * MEBIBYTE, [level] * 16)

    tree = Tree()
    tree.add_file(2, "f", b"")
    image = Sparse.of(tree)
    image.set_inode(3, tree_of(image))
    image.mark()
    return image


def itself():
    """A file of 64 MiB whose sixteen indirect blocks lead to themselves."""
    tree = Tree()
    tree.add_file(2, "f", b"")
    image = Sparse.of(tree)
    levels = [image.take(b"") for _ in range(16)]
    for level in levels:
        image.put(level, struct.pack(f"<{POINTERS}I", *[level] * POINTERS))
    image.set_inode(3, record(1, 64 * MEBIBYTE, levels))
    image.mark()
    return image


def copies(at):
    """An image of which each block is a copy of one of a new image's."""

    def made():
        image = Sparse.of(Tree())
        same = image.written[at]
        for block in range(BLOCKS):
            image.put(block, same)
        return image

    return made


def alike():
    """Files of 64 MiB, as many as fit, whose blocks have the same bytes."""
    tree = Tree()
    for number in range(3):
        tree.add_file(2, f"f{number}", bytes(range(256)) * (64 * MEBIBYTE // 256))
    return Sparse.of(tree)


# Each with the front of what a check tells of it.
IMAGES = {
    "a new image": (lambda: Sparse.of(Tree()), "clean"),
    "5,000 files of one block": (ordinary, "clean"),
    "a directory that claims 64 MiB, of one block": (hole, "fault C5 197"),
    "one that has 16,383 of its 16,384 blocks": (deep_hole, "fault C5 197"),
    "a directory that claims 64 GiB, of one block": (far_hole, "fault C5 197"),
    "a file of 64 GiB, of one block": (far, "clean"),
    "a file in 10,000 names": (names, "clean"),
    "a tree 1,000 directories deep": (deep, "clean"),
    "all 65,534 numbers in use": (numbers, "clean"),
    "all of them, under names of 255 bytes": (long_names, "clean"),
    "an inode file that is one block sixteen times": (one_pointer, "fault C3"),
    "a file that is one block 16,384 times": (one_block, "fault C3"),
    "sixteen indirect blocks that lead to themselves": (itself, "fault C3"),
    "each block is the superblock": (copies(0), "snapfs: M3"),
    "each block is the root": (copies(1), "snapfs: M1"),
    "three files of 64 MiB of the same bytes": (alike, "clean"),
}


# ---- telling


class Wrong(Exception):
    """What isn't as it has to be."""


class Teller:
    def __init__(self, program, folder):
        self.program, self.folder = program, Path(folder)
        (self.folder / "none").write_text("")

    def told(self, *words):
        """The first line that the program writes, and how long it took of a processor."""
        before = resource.getrusage(resource.RUSAGE_CHILDREN)
        run = subprocess.run([self.program, *words], cwd=self.folder, capture_output=True, text=True, timeout=SECONDS)
        behind = resource.getrusage(resource.RUSAGE_CHILDREN)
        taken = behind.ru_utime + behind.ru_stime - before.ru_utime - before.ru_stime
        return (run.stdout + run.stderr).splitlines()[:1], taken

    def is_told(self, told, wanted):
        line = told[0] if told else ""
        if not line.startswith(wanted):
            raise Wrong(f"{line}, and not {wanted}")

    def check(self, wanted):
        told, taken = self.told("check", "image")
        self.is_told(told, wanted)
        return taken

    def run(self, wanted):
        """A mount and an unmount of a copy, or the fault of the mount, which leaves each byte."""
        shutil.copyfile(self.folder / "image", self.folder / "copy")
        told, taken = self.told("run", "copy", "none")
        if wanted.startswith("clean"):
            if told:
                raise Wrong(told[0])
        else:
            self.is_told(told, wanted.replace("fault", "snapfs: M4"))
            if subprocess.run(["cmp", "-s", self.folder / "image", self.folder / "copy"]).returncode:
                raise Wrong("a mount that failed has written")
        return taken


def in_use(image):
    """How many blocks of the data area are in use."""
    return len([at for at in image.written if at >= 68 + 2 * image.map_blocks])


def tell_times(program, folder):
    teller, found, wrong = Teller(program, folder), {}, 0
    for name, (made, wanted) in IMAGES.items():
        image = made()
        image.write(Path(folder) / "image")
        try:
            check = min(teller.check(wanted) for _ in range(ROUNDS))
            run = min(teller.run(wanted) for _ in range(ROUNDS))
            found[name] = (in_use(image), check, run)
        except (Wrong, subprocess.TimeoutExpired) as it:
            print(f"{name}: {it}", flush=True)
            wrong += 1
    _, new_check, new_run = found["a new image"]
    blocks, check, run = found["5,000 files of one block"]
    each = (check - new_check) / blocks, (run - new_run) / blocks
    print("| image | blocks in use | check, of a new image's | run | a block in a check, of an ordinary one's | in a run |")
    print("|---|---|---|---|---|---|")
    for name, (blocks, check, run) in found.items():
        per = [max(0, more) / blocks / one for more, one in ((check - new_check, each[0]), (run - new_run, each[1]))]
        line = f"{check / new_check:.1f} | {run / new_run:.1f} | {per[0]:.1f} | {per[1]:.1f}"
        print(f"| {name} | {blocks:,} | {line} |", flush=True)
        wrong += max(per) > MOST
    print(f"a check of a new image took {new_check * 1000:.1f} ms, {wrong} wrong")
    return wrong == 0


# ---- memory

# Beside four bytes for each block of the image, and as many again where a point is made.
BOUND = 3 * MEBIBYTE
# And beside its bytes, for each name of the directory that has most.
NAME = 64


def spread(first, count):
    """Writes of two bytes, each over the end of a block, far from one another."""
    places = (4095 + 4096 * 37 * at for at in range(first, first + count))
    return "".join(f"0 seek 0 {place}\n0 write 0 4142\n" for place in places)


# What changes: 127 records fill a half, and twice that are held while a point is made in steps.
SPREAD = "0 login 0 0 -\n0 open /spread wc 0644\n" + spread(0, 100) + "step\nstep\n" + spread(100, 100) + "0 sync\n"
LONG = "0 login 0 0 -\n0 open /long wc 0644\n" + f"0 write 0 {'61' * 65536}\n" * 12 + "step\n" + f"0 write 0 {'62' * 65536}\n" * 2
# A name that isn't there, which is looked for in all blocks of the directory: they come into its index.
MISSING = "0 login 0 0 -\n0 stat /missing\n"
# What an index has for each name, and for each block. While it is put in order, it is there twice.
INDEXED, INDEXED_BLOCK = 8, 12
# Each write of SPREAD changes two blocks and their indirect block; each of LONG sixteen. What changed is held, and what a point writes of it.
CHANGED = {"": 0, MISSING: 0, SPREAD: 2 * 3 * 200, LONG: 2 * 17 * 4}


def peak_of(folder, library, *words):
    run = subprocess.run(words, cwd=folder, capture_output=True, text=True, timeout=SECONDS, env={"LD_PRELOAD": library})
    return int(run.stderr.split()[-1])


def tell_memory(program, folder):
    work, wrong = Path(folder), 0
    sh = f'. "{TOP}/bench/speed/peak.sh"; peak_into "{folder}"'
    subprocess.run(["bash", "-c", sh], check=True)
    library = f"{folder}/peak.so"
    made = {name: (made, BLOCKS) for name, (made, _) in IMAGES.items()}
    made["a new image of 256 blocks"] = (lambda: Sparse.of(Tree(), 256), 256)
    made["a new image of 1,048,576 blocks"] = (lambda: Sparse.of(Tree(), LARGEST), LARGEST)
    print("| image | | most bytes held | of its bound |")
    print("|---|---|---|---|")
    for name, (image_made, blocks) in made.items():
        image = image_made()
        image.write(work / "image")
        tasks = [("check", "", BOUND + 4 * blocks + image.names), ("a run", "", BOUND + 8 * blocks + image.names)]
        if name in ("a new image", "5,000 files of one block", "a new image of 1,048,576 blocks"):
            tasks += [("short writes", SPREAD, None), ("long writes", LONG, None)]
        if name in ("all 65,534 numbers in use", "all of them, under names of 255 bytes"):
            index = 2 * (INDEXED * 65_533 + INDEXED_BLOCK * in_use(image))
            tasks += [("a look-up", MISSING, BOUND + 8 * blocks + image.names + index)]
        for task, script, bound in tasks:
            (work / "script").write_text(script)
            shutil.copyfile(work / "image", work / "copy")
            words = ("check", "copy") if task == "check" else ("run", "copy", "script")
            bound = bound or BOUND + 8 * blocks + image.names + BLOCK * CHANGED[script] + 4 * len(script)
            most = peak_of(work, library, program, *words)
            print(f"| {name} | {task} | {most:,} | {most / bound:.2f} |", flush=True)
            wrong += most > bound
    print(f"{wrong} wrong")
    return wrong == 0


def main():
    words = argparse.ArgumentParser(description=__doc__.splitlines()[0])
    words.add_argument("what", choices=("times", "memory"))
    words.add_argument("--snapfs")
    words = words.parse_args()
    with tempfile.TemporaryDirectory() as folder:
        program = program_at(words.snapfs)
        is_right = {"times": tell_times, "memory": tell_memory}[words.what](program, folder)
    sys.exit(0 if is_right else 1)


if __name__ == "__main__":
    main()
