#!/usr/bin/env python3
"""Changes one to four bytes of sound images, and lets `snapfs check` and the plain reading of plain_check.py tell each one.

    bench/hostile/images.py [--count N] [--snapfs PATH] [--mounts]   tells N images, 10,000 where it isn't given; the status is 1 where two lines differ
    bench/hostile/images.py --save NUMBER FILE                       writes one of these images

Run by hand: builds the program where it isn't up to date, or takes the one of PATH. The images are those of worked_images.py, one
after the other. What is changed follows from the number of an image alone, so each run has the same ones: half of the bytes
are of fields that mean something, and the others are anywhere in the blocks that are in use. The line and the status of the
program have to be those of the reading. With --mounts a copy of each image is mounted too, for a program of which each mount
begins with the check: it has to tell the fault of the check and leave the copy as it was, or else leave a sound image.
Prints how often each answer came, and each image of which the two tell something else.
"""

import argparse
import subprocess
import sys
import tempfile
from collections import Counter
from multiprocessing import Pool
from pathlib import Path

sys.dont_write_bytecode = True
sys.path.append(str(Path(__file__).resolve().parents[1] / "plain"))

from made_image import BLOCK  # noqa: E402
from plain_check import (  # noqa: E402
    FIRST_GATE, SECTORS_PER_BLOCK, Disk, answer, blocks_of, epoch_behind, newest, records_of, roots_of, status_of,
)
from plain_format import DIRECTORY, MOST_AGE, RECORD, SECTOR, inode, names_in, number, pointers_in, root_body  # noqa: E402
from worked_images import Program, made_bytes, worked_bytes  # noqa: E402

TOP = Path(__file__).resolve().parents[2]
BUILT = TOP / "crates/sn_bin/out/sn_bin"
PROCESSES = 2
SECONDS = 120
MOST_CHANGES = 4
SMALL_NUMBERS = (0, 1, 2, 3, 4, 5, 6, 7, 8, 16, 64, 127, 128, 255)
FRONT_BLOCKS = 4
# One image in so many has the numbers of two names exchanged, so that each number keeps as many names.
EXCHANGED = 16
# How often each kind of field is drawn. Few of the faults in front are wanted, since nothing behind them is looked at then.
KINDS = {
    "superblock": 1, "roots": 2, "gates": 3, "heads": 3, "links": 4, "pointers": 4, "names": 4, "numbers": 5, "indirect": 4, "acls": 4,
    "map": 3, "log": 9,
}


class Draws:
    """Numbers that follow from a seed: the SplitMix64 generator of Steele, Lea and Flood 2014."""

    def __init__(self, seed):
        self.state = seed

    def next(self):
        self.state = (self.state + 0x9E3779B97F4A7C15) % 2**64
        mixed = (self.state ^ self.state >> 30) * 0xBF58476D1CE4E5B9 % 2**64
        mixed = (mixed ^ mixed >> 27) * 0x94D049BB133111EB % 2**64
        return mixed ^ mixed >> 31

    def below(self, bound):
        return self.next() % bound

    def among(self, things):
        return things[self.below(len(things))]


# ---- which bytes mean something


class Fields:
    """The bytes of an image that mean something, as runs of each kind."""

    def __init__(self, image):
        self.disk = Disk(image)
        slot, root = newest(self.disk)
        self.runs = {kind: [] for kind in KINDS}
        self.data_blocks = set()
        self.add("superblock", 0, 16)
        for each in (0, 1):
            self.add("gates", SECTOR * (FIRST_GATE + each), 1)
            self.add_root_body(each)
        for each in roots_of(slot, root):
            self.add_root(each)
        for block in sorted(self.data_blocks):
            self.add("map", BLOCK * self.disk.map_copy(slot) + 4 * block, 4)
        self.add("map", BLOCK * self.disk.map_copy(slot), 4 * self.disk.blocks)
        for epoch in (root.epoch, root.epoch + 1):
            self.add_log(epoch)

    def add(self, kind, at, count):
        self.runs[kind].append((at, count))

    def add_root_body(self, slot):
        """The fields of a slot's root body, where it is open."""
        if self.disk.is_open(FIRST_GATE + slot):
            at, body = BLOCK * (1 + slot), root_body(self.disk.block(1 + slot))
            for start, count in ((0, 104), (8, 1), (16, 1)):
                self.add("roots", at + start, count)
            for place in range(len(body.snapshots)):
                self.add("roots", at + 624 + 112 * place, 112)
                self.add("roots", at + 624 + 112 * place, 3)

    def add_root(self, root):
        """The fields of what a root reaches."""
        self.add_tree(root.tree)
        for inode_number, record in records_of(self.disk, root).items():
            at = BLOCK * record.block + RECORD * (inode_number % (BLOCK // RECORD))
            self.add("heads", at, 28)
            self.add("heads", at, 1)
            self.add("links", at + 4, 2)
            found = inode(root.limits, record.data)
            if found.acl_block != 0:
                self.data_blocks.add(found.acl_block)
                entries = self.disk.block(found.acl_block)[0] + self.disk.block(found.acl_block)[1]
                self.add("acls", BLOCK * found.acl_block, 8 + 8 * entries)
            if found.tree is None:
                self.add("heads", at + 64, 64)
            else:
                self.add_pointers("pointers", at + 64, found.tree.pointers)
                self.add_tree(found.tree)
            if found.kind == DIRECTORY:
                self.add_names(found.tree)

    def add_tree(self, tree):
        """The blocks of a tree, and the pointers of its indirect blocks."""
        for pointer in tree.pointers:
            if pointer != 0:
                self.data_blocks.add(pointer)
            if pointer != 0 and tree.levels() > 0:
                below = pointers_in(self.disk.block(pointer))
                self.data_blocks.update(set(below) - {0})
                self.add_pointers("indirect", BLOCK * pointer, below)

    def add_pointers(self, kind, at, pointers):
        """The two lower bytes of each pointer that is no hole, and all of the one behind the last of them."""
        used = [place for place, pointer in enumerate(pointers) if pointer != 0]
        for place in used:
            self.add(kind, at + 4 * place, 2)
        behind = used[-1] + 1 if used else 0
        if behind < len(pointers):
            self.add(kind, at + 4 * behind, 4)

    def add_names(self, tree):
        """The names of a directory, and a little behind those of each block."""
        for pointer in blocks_of(self.disk, tree):
            used = 0
            for _, name in names_in(self.disk.block(pointer)):
                self.add("numbers", BLOCK * pointer + used, 2)
                used += 3 + len(name)
            self.add("names", BLOCK * pointer, min(BLOCK, used + 4))

    def add_log(self, epoch):
        """The records of an epoch, with their gates and the gate behind them."""
        at = SECTORS_PER_BLOCK * self.disk.half(epoch)
        while epoch_behind(self.disk, at) == epoch:
            length = 16 + number(self.disk.image, SECTOR * (at + 1) + 12, 4)
            self.add("gates", SECTOR * at, 1)
            self.add("log", SECTOR * (at + 1), length)
            self.add("log", SECTOR * (at + 1) + 16, 8)
            at += 1 + (length + SECTOR - 1) // SECTOR
        self.add("gates", SECTOR * at, 1)
        self.add("gates", SECTOR * (at + 1), 8)

    def kinds(self):
        """The runs of each kind, as often as it is to be drawn."""
        return [self.runs[kind] for kind, times in KINDS.items() if self.runs[kind] for _ in range(times)]

    def blocks_in_use(self):
        """The blocks that a root reaches, and those of the other areas that aren't all zeros, each as often as it is to be drawn."""
        areas = [block for block in range(self.disk.first_data) if any(self.disk.block(block))]
        behind = [block for block in areas if block >= FRONT_BLOCKS] + sorted(self.data_blocks)
        return list(range(FRONT_BLOCKS)) + FRONT_BLOCKS * behind


# ---- changes


class Base:
    """A sound image to change, with the bytes to choose from."""

    def __init__(self, name, image):
        self.name = name
        self.image = image
        if not answer(image).startswith("clean"):
            raise ValueError(f"{name} isn't sound: {answer(image)}")
        fields = Fields(image)
        self.kinds = fields.kinds()
        self.numbers = fields.runs["numbers"]
        self.blocks = fields.blocks_in_use()

    def place(self, draws):
        """A byte of a field, one time in two, or else any in a block that is in use."""
        if draws.below(2) == 0:
            at, count = draws.among(draws.among(self.kinds))
            return at + draws.below(count)
        return BLOCK * draws.among(self.blocks) + draws.below(BLOCK)

    def changes(self, seed):
        """The bytes of one changed image that are other ones, by their places."""
        draws = Draws(seed)
        if len(self.numbers) > 1 and draws.below(EXCHANGED) == 0:
            return self.exchanged(draws)
        changes = {}
        # More often few, so that one change doesn't hide another.
        for _ in range(1 + draws.below(1 + draws.below(MOST_CHANGES))):
            at = self.place(draws)
            changes[at] = other_byte(draws, self.image[at])
        return changes

    def exchanged(self, draws):
        """The bytes of two names that have each other's numbers."""
        one, other = draws.among(self.numbers)[0], draws.among(self.numbers)[0]
        pairs = ((one, other), (one + 1, other + 1), (other, one), (other + 1, one + 1))
        return {at: self.image[source] for at, source in pairs if self.image[at] != self.image[source]}

    def changed(self, changes):
        image = bytearray(self.image)
        for at, byte in changes.items():
            image[at] = byte
        return bytes(image)


def other_byte(draws, byte):
    """Another byte: one bit of it, its neighbour, a small number, or any."""
    drawn = (byte ^ 1 << draws.below(8), (byte + 1) % 256, (byte - 1) % 256, draws.among(SMALL_NUMBERS), draws.below(256))
    other = draws.among(drawn)
    return other if other != byte else byte ^ 1


def base_of(bases, number_of_image):
    return bases[number_of_image % len(bases)]


# ---- telling


class Teller:
    """Tells images by the program, in files of its own of which only the changed bytes are written."""

    def __init__(self, program, bases, folder, mounts):
        self.program = program
        self.bases = bases
        self.mounts = mounts
        self.folder = tempfile.TemporaryDirectory(dir=folder)
        self.file("script").write_bytes(b"")
        for base in bases:
            self.file(base.name).write_bytes(base.image)

    def file(self, name):
        return Path(self.folder.name) / name

    def by_program(self, *words):
        """The line and the status of the program with these words."""
        try:
            done = subprocess.run([self.program, *words], capture_output=True, text=True, timeout=SECONDS)
            return (done.stdout + done.stderr).strip(), done.returncode
        except subprocess.TimeoutExpired:
            return f"nothing in {SECONDS} seconds", None

    def by_check(self, base, changes):
        """The line and the status of a check."""
        with open(self.file(base.name), "r+b", buffering=0) as file:
            write_bytes(file, changes)
            told = self.by_program("check", self.file(base.name))
            write_bytes(file, {at: base.image[at] for at in changes})
        return told

    def by_mount(self, image):
        """The line and the status of a run without a call on a copy, and what it leaves there."""
        copy = self.file("copy")
        copy.write_bytes(image)
        return *self.by_program("run", copy, self.file("script")), copy.read_bytes()


def write_bytes(file, changes):
    for at, byte in changes.items():
        file.seek(at)
        file.write(bytes([byte]))


teller = None


def begin(*words):
    """Makes the files of one process."""
    global teller
    teller = Teller(*words)


def tell(number_of_image):
    """What the reading tells of an image, and how the program's differs, if it does."""
    base = base_of(teller.bases, number_of_image)
    changes = base.changes(number_of_image)
    image = base.changed(changes)
    line = answer(image)
    told, status = teller.by_check(base, changes)
    differs = (told, status) != (line, status_of(line))
    if teller.mounts and not differs:
        told, status, left = teller.by_mount(image)
        if line.startswith("clean"):
            wanted = ("", 0) if has_next_root(image) else ("snapfs: stopped", 1)
            differs = (told, status) != wanted or not answer(left).startswith("clean")
        else:
            differs = (told, status) != (line.replace("fault", "snapfs: M4"), 1) or left != image
    if not differs:
        return line, None
    runs = " ".join(f"{at}:{byte:02x}" for at, byte in sorted(changes.items()))
    return line, f"image {number_of_image}, {base.name} with {runs}: the program tells {told} ({status}), the reading {line}"


def has_next_root(image):
    """Whether another root can follow that of a sound image, so that what was mounted can be unmounted."""
    root = newest(Disk(image))[1]
    return root.generation < MOST_AGE and root.epoch < MOST_AGE


def kind_of(line):
    words = line.split()
    return words[0] if words[0] == "clean" else words[1]


def tell_all(count, *words):
    """Tells so many images, prints what is found, and answers whether program and reading agree."""
    kinds, differing = Counter(), 0
    with Pool(PROCESSES, begin, words) as pool:
        for line, difference in pool.imap(tell, range(count), chunksize=16):
            kinds[kind_of(line)] += 1
            if difference is not None:
                differing += 1
                print(difference, flush=True)
    for kind, times in sorted(kinds.items()):
        print(f"{kind:<6} {times:>6}")
    print(f"{count} images, {differing} of which program and reading tell otherwise")
    return differing == 0


def program_at(path):
    """The program of a path, or the one that the wrapper builds."""
    if path is not None:
        return Path(path).resolve()
    subprocess.run([TOP / "snapfs", "--build"], check=True)
    return BUILT


def main():
    parser = argparse.ArgumentParser(description=__doc__.splitlines()[0])
    parser.add_argument("--count", type=int, default=10_000)
    parser.add_argument("--snapfs")
    parser.add_argument("--mounts", action="store_true")
    parser.add_argument("--save", nargs=2, metavar=("NUMBER", "FILE"))
    words = parser.parse_args()
    with tempfile.TemporaryDirectory() as folder:
        program = program_at(words.snapfs)
        images = worked_bytes(Program(program, Path(folder))) | made_bytes()
        bases = [Base(name, image) for name, image in images.items()]
        if words.save:
            wanted = int(words.save[0])
            base = base_of(bases, wanted)
            Path(words.save[1]).write_bytes(base.changed(base.changes(wanted)))
        elif not tell_all(words.count, program, bases, folder, words.mounts):
            sys.exit(1)


if __name__ == "__main__":
    main()
