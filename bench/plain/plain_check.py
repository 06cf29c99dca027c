#!/usr/bin/env python3
"""Tells what `snapfs check` has to print of an image: a reading of its own, by the documents alone.

    bench/plain/plain_check.py IMAGE..          prints the line for each image, and ends with the status of a check, that of the worst
    bench/plain/plain_check.py --table FILE..   compares it with tables of crates/sn_tests_program/data/image; the status is 1 where one differs

docs/FORMAT.md has the rules, and the block that a fault of each is told of. Which of several faults of one group is told stands
in docs/DECISIONS.md, under "The image check": the first one in the order in which the functions here look for them.
"""

import sys
from collections import namedtuple
from pathlib import Path

sys.dont_write_bytecode = True

from made_image import BLOCK, POINTERS, VERSION, Tree, image_of  # noqa: E402
from plain_format import (  # noqa: E402
    DIRECTORY, FILE, MOST_AGE, MOST_LINKS, RECORD, SECTOR, VERSIONS, Link, Make, Remove, Rename, SetAttributes, SetSize, Write,
    acl_block, are_zeros, inode, log_body, names_in, number, pointers_in, root_body, superblock,
)

SECTORS_PER_BLOCK, RECORDS_PER_BLOCK = BLOCK // SECTOR, BLOCK // RECORD
FIRST_GATE = 24
HALF_BLOCKS, LAST_PLACE, LAST_GATE = 32, 253, 255
ROOT, HIDDEN_NAME = 2, b".snapshot"
LARGEST_NUMBER, MOST_NAMES, MOST_INODE_BLOCKS = 65_535, 65_535, 2_048
# What changes are charged for: so many inodes and so many blocks. A remove of a file, and a write, are charged more.
CHARGES = {Make: (2, 1), Link: (2, 1), Remove: (2, 1), Rename: (5, 2), Write: (1, 0), SetSize: (1, 1), SetAttributes: (1, 0)}


class Told(Exception):
    """The line of an image that isn't clean: its first fault, or why it can't be checked."""


# ---- the disk


class Disk:
    """The bytes of an image that is formatted, and where things lie in it."""

    def __init__(self, image):
        self.image = image
        blocks = superblock(image[:BLOCK]) if len(image) >= BLOCK else None
        if blocks is None or len(image) // SECTOR < SECTORS_PER_BLOCK * blocks:
            raise Told("snapfs: M1")
        self.blocks = blocks
        self.map_blocks = (blocks + POINTERS - 1) // POINTERS
        self.first_data = 68 + 2 * self.map_blocks

    def block(self, at):
        return self.image[BLOCK * at : BLOCK * (at + 1)]

    def is_open(self, gate):
        """Whether the gate in this sector is open."""
        return self.image[SECTOR * gate] == 1

    def is_data(self, pointer):
        return self.first_data <= pointer < self.blocks

    def map_copy(self, slot):
        """The first block of a slot's copy of the map."""
        return 4 + self.map_blocks * slot

    def half(self, epoch):
        """The first block of the half of the log that an epoch's records lie in."""
        return 4 + 2 * self.map_blocks + HALF_BLOCKS * (epoch % 2)


# The inode file of the live root or of a snapshot, with its bit in the map, the block of the root body that has it, and the limits of
# that one's version.
Root = namedtuple("Root", "bit tree body limits")


def newest(disk):
    """The slot of the newest root, and that root."""
    slots = [slot for slot in (0, 1) if disk.is_open(FIRST_GATE + slot)]
    if not slots:
        raise Told("snapfs: M3")
    if any(number(disk.block(1 + slot), 0, 4) not in VERSIONS for slot in slots):
        raise Told("snapfs: M2")
    roots = {slot: root_body(disk.block(1 + slot)) for slot in slots}
    for slot in slots:
        if roots[slot] is None:
            raise Told(f"fault C1 {1 + slot}")
    if len({root.generation for root in roots.values()}) < len(slots):
        raise Told("fault C1 3")
    return max(roots.items(), key=lambda item: item[1].generation)


def roots_of(slot, root):
    """The live root and then those of the snapshots, by their bits."""
    limits = VERSIONS[root.version]
    live = Root(0, root.inode_file, 1 + slot, limits)
    return [live] + [Root(each.bit, each.tree, 1 + slot, limits) for each in root.snapshots]


# ---- block trees


def pointer_to(disk, tree, index):
    """The pointer to a data block of a tree, 0 for a hole."""
    span = POINTERS ** tree.levels()
    pointer = tree.pointers[index // span]
    while span > 1 and pointer != 0:
        index, span = index % span, span // POINTERS
        pointer = pointers_in(disk.block(pointer))[index // span]
    return pointer


def blocks_of(disk, tree):
    """The pointers to the data blocks of a tree of whole blocks, one after the other."""
    return (pointer_to(disk, tree, index) for index in range(tree.size // BLOCK))


class Marks:
    """A word for each block of the disk, in which each root sets its bit for the blocks that it reaches."""

    def __init__(self, disk):
        self.disk = disk
        self.words = [0] * disk.blocks

    def mark(self, root, pointer):
        if not self.disk.is_data(pointer):
            raise Told(f"fault C2 {pointer}")
        if self.words[pointer] >> root.bit & 1:
            raise Told(f"fault C3 {pointer}")
        self.words[pointer] |= 1 << root.bit


def mark_tree(marks, root, tree, holder):
    """Marks what a tree reaches, whose sixteen pointers stand in the block `holder`."""
    for index, pointer in enumerate(tree.pointers):
        mark_below(marks, root, tree, 0, index, pointer, holder)


def mark_below(marks, root, tree, depth, index, pointer, holder):
    """The same of a pointer so many levels below the sixteen, before which `index` stand on that level."""
    if pointer == 0:
        return
    if tree.size <= index * tree.span(depth):
        raise Told(f"fault C5 {holder}")
    marks.mark(root, pointer)
    block = marks.disk.block(pointer)
    if depth < tree.levels():
        for place, below in enumerate(pointers_in(block)):
            mark_below(marks, root, tree, depth + 1, POINTERS * index + place, below, pointer)
    elif not are_zeros(block[max(0, tree.size - BLOCK * index) :]):
        raise Told(f"fault C5 {pointer}")


# ---- one root: pointers, and what is spelled

# A record that isn't zeros, and the block of the inode file in which it stands.
Record = namedtuple("Record", "data block")


def records_of(disk, root):
    """The records of an inode file but those of zeros, by their numbers."""
    records = {}
    for index, pointer in enumerate(blocks_of(disk, root.tree)):
        block = disk.block(pointer) if pointer != 0 else bytes(BLOCK)
        for place in range(RECORDS_PER_BLOCK):
            data = block[RECORD * place : RECORD * (place + 1)]
            if not are_zeros(data):
                records[RECORDS_PER_BLOCK * index + place] = Record(data, pointer)
    return records


def check_root(marks, root):
    """Looks for C2, C3 and C5 in one root."""
    if root.tree.size % BLOCK != 0 or not 1 <= root.tree.size // BLOCK <= MOST_INODE_BLOCKS:
        raise Told(f"fault C5 {root.body}")
    mark_tree(marks, root, root.tree, root.body)
    records = records_of(marks.disk, root)
    for inode_number, record in records.items():
        # The first two numbers are no node's.
        if inode_number < ROOT:
            raise Told(f"fault C5 {record.block}")
        check_inode(marks, root, record)
    check_root_directory(marks.disk, root, records.get(ROOT))


def check_inode(marks, root, record):
    """Looks at all that stands under one number."""
    found = inode(root.limits, record.data)
    if found is None:
        raise Told(f"fault C5 {record.block}")
    if found.acl_block != 0:
        marks.mark(root, found.acl_block)
        acls = acl_block(marks.disk.block(found.acl_block))
        if acls is None or (found.kind == FILE and acls.default > 0):
            raise Told(f"fault C5 {found.acl_block}")
    if found.tree is not None:
        mark_tree(marks, root, found.tree, record.block)
    if found.kind == DIRECTORY:
        check_directory(marks.disk, found.tree, record.block)


def check_directory(disk, tree, record_block):
    """Looks at the blocks of a directory from the front, and then at all of its names."""
    names = []
    for pointer in blocks_of(disk, tree):
        if pointer == 0:
            raise Told(f"fault C5 {record_block}")
        spelled = names_in(disk.block(pointer))
        if spelled is None:
            raise Told(f"fault C5 {pointer}")
        names += [name for _, name in spelled]
    if len(names) > MOST_NAMES or len(set(names)) < len(names):
        raise Told(f"fault C5 {record_block}")


def check_root_directory(disk, root, record):
    """Looks at what is asked of inode 2 alone, which is told of the root body where its record is in a hole."""
    found = inode(root.limits, record.data) if record is not None else None
    if found is None or found.kind != DIRECTORY or HIDDEN_NAME in [name for _, _, name in names_of(disk, found.tree)]:
        raise Told(f"fault C5 {pointer_to(disk, root.tree, 0) or root.body}")


def names_of(disk, tree):
    """The names of a directory that was checked, each with the block in which it stands and its number."""
    return [(pointer, *link) for pointer in blocks_of(disk, tree) for link in names_in(disk.block(pointer))]


# ---- the map


def check_map(marks, slot):
    """Looks for C4: each word of the slot's copy is the marks of its block, and 0 behind the last block of the disk."""
    disk = marks.disk
    behind = POINTERS * disk.map_blocks - disk.blocks
    for place, wanted in enumerate(marks.words + [0] * behind):
        if number(disk.image, BLOCK * disk.map_copy(slot) + 4 * place, 4) != wanted:
            raise Told(f"fault C4 {place}")


# ---- names and links


def check_links(disk, root):
    """Looks for C6: names too many, numbers with a name too few, and directories that aren't reached."""
    records = records_of(disk, root)
    inodes = {inode_number: inode(root.limits, record.data) for inode_number, record in records.items()}
    directories = [inode_number for inode_number, found in inodes.items() if found.kind == DIRECTORY]
    # How many names each number still lacks, and a directory that has one. The root directory is to have none.
    lacks = {inode_number: found.links for inode_number, found in inodes.items()} | {ROOT: 0}
    parents = {}
    for directory in directories:
        for block, inode_number, _ in names_of(disk, inodes[directory].tree):
            if lacks.get(inode_number, 0) == 0:
                raise Told(f"fault C6 {records[inode_number].block if inode_number in records else block}")
            lacks[inode_number] -= 1
            parents[inode_number] = directory
    for inode_number, lacking in lacks.items():
        if lacking > 0:
            raise Told(f"fault C6 {records[inode_number].block}")
    for directory in directories:
        if not is_below(parents, ROOT, directory):
            raise Told(f"fault C6 {records[directory].block}")


def is_below(parents, top, directory):
    """Whether one comes up to a directory from another one, by the parent that each has but the root."""
    seen = set()
    while directory not in seen and directory not in (top, None):
        seen.add(directory)
        directory = parents.get(directory)
    return directory == top


# ---- the log


class NameTree:
    """What changes are made of: the kind of each number, and the number under each directory and name."""

    def __init__(self, disk, root):
        self.kinds, self.links, self.limits = {}, {}, root.limits
        for inode_number, record in records_of(disk, root).items():
            found = inode(root.limits, record.data)
            self.kinds[inode_number] = found.kind
            if found.kind == DIRECTORY:
                self.links.update({(inode_number, name): child for _, child, name in names_of(disk, found.tree)})

    def names_in(self, directory):
        return sum(1 for holder, _ in self.links if holder == directory)

    def names_for(self, inode_number):
        return sum(1 for child in self.links.values() if child == inode_number)

    def is_file(self, inode_number):
        return self.kinds.get(inode_number) == FILE

    def nameless(self):
        """How many files have no name."""
        named = set(self.links.values())
        return sum(1 for inode_number, kind in self.kinds.items() if kind == FILE and inode_number not in named)

    def parents(self):
        """The directory in which each directory has its name."""
        return {child: holder for (holder, _), child in self.links.items() if self.kinds[child] == DIRECTORY}

    def can_name(self, directory, name, inode_number):
        """Whether a directory can have one more name, this one, for this number."""
        is_new = (directory, name) not in self.links and (directory, name) != (ROOT, HIDDEN_NAME)
        has_room = self.names_in(directory) < MOST_NAMES and self.names_for(inode_number) < MOST_LINKS
        return self.kinds.get(directory) == DIRECTORY and is_new and has_room

    def take_name(self, directory, name):
        """Takes a name away, with the directory that it stands for, and answers whether it may go."""
        child = self.links.pop((directory, name))
        if self.kinds[child] == FILE:
            return True
        del self.kinds[child]
        return self.names_in(child) == 0


# Each of these makes a change, and answers whether it can be made: the tree of one that can't isn't looked at again.


def make(tree, change):
    is_free = change.number not in tree.kinds or (tree.is_file(change.number) and tree.names_for(change.number) == 0)
    is_number = ROOT < change.number <= LARGEST_NUMBER and is_free
    has_right_acls = change.kind == DIRECTORY or change.acls.default == 0
    if not is_number or not has_right_acls or not tree.can_name(change.directory, change.name, change.number):
        return False
    tree.kinds[change.number] = change.kind
    tree.links[change.directory, change.name] = change.number
    return True


def link(tree, change):
    if not tree.is_file(change.number) or not tree.can_name(change.directory, change.name, change.number):
        return False
    tree.links[change.directory, change.name] = change.number
    return True


def remove(tree, change):
    return (change.directory, change.name) in tree.links and tree.take_name(change.directory, change.name)


def rename(tree, change):
    old, new = (change.old_directory, change.old_name), (change.new_directory, change.new_name)
    if old not in tree.links:
        return False
    moved = tree.links[old]
    if tree.links.get(new) == moved:
        return True
    kind = tree.kinds[moved]
    if kind == DIRECTORY and is_below(tree.parents(), moved, change.new_directory):
        return False
    if new in tree.links and (tree.kinds[tree.links[new]] != kind or not tree.take_name(*new)):
        return False
    del tree.links[old]
    if not tree.can_name(*new, moved):
        return False
    tree.links[new] = moved
    return True


def write(tree, change):
    return tree.is_file(change.number) and change.offset + change.count <= tree.limits.largest_file


def set_size(tree, change):
    return tree.is_file(change.number) and change.size <= tree.limits.largest_file


def set_attributes(tree, change):
    return change.number in tree.kinds and (change.acls.default == 0 or not tree.is_file(change.number))


MAKERS = {Make: make, Link: link, Remove: remove, Rename: rename, Write: write, SetSize: set_size, SetAttributes: set_attributes}


def charge(tree, change):
    """The blocks that a change is charged, of the tree that it is made of."""
    inodes, blocks = CHARGES[type(change)]
    if isinstance(change, Remove) and tree.is_file(tree.links.get((change.directory, change.name))):
        inodes = 3
    if isinstance(change, Write):
        blocks = (change.offset + change.count - 1) // BLOCK - change.offset // BLOCK + 1
    return tree.limits.inode_charge * inodes + tree.limits.block_charge * blocks


def epoch_behind(disk, place):
    """The epoch of the body behind a gate's sector, where the gate is open."""
    return number(disk.image, SECTOR * (place + 1), 8) if disk.is_open(place) else None


def replay(disk, tree, epoch):
    """Makes the changes of an epoch's records, and answers the charge of each."""
    base, place, charges = SECTORS_PER_BLOCK * disk.half(epoch), 0, []
    while place <= LAST_PLACE and epoch_behind(disk, base + place) == epoch:
        body = log_body(disk.image[SECTOR * (base + place + 1) : SECTOR * (base + LAST_GATE)], len(charges))
        if body is not None:
            charges.append(charge(tree, body.change))
        if body is None or not MAKERS[type(body.change)](tree, body.change):
            raise Told(f"fault C7 {(base + place) // SECTORS_PER_BLOCK}")
        place += body.sectors + 1
    return charges


def check_log(disk, slot, root, free):
    """Looks for C7: later epochs, records, what they are charged, and the age that a recovery needs, as a root of an old version does."""
    for half in range(2):
        if (epoch_behind(disk, SECTORS_PER_BLOCK * disk.half(half)) or 0) > root.epoch + 1:
            raise Told(f"fault C7 {disk.half(half)}")
    tree = NameTree(disk, roots_of(slot, root)[0])
    nameless = tree.nameless()
    charges = replay(disk, tree, root.epoch) + replay(disk, tree, root.epoch + 1)
    is_covered = sum(charges) + tree.limits.inode_charge * nameless <= free
    has_age = root.generation + 1 <= MOST_AGE and root.epoch + 2 <= MOST_AGE
    recovers = charges or nameless or root.version != VERSION
    if not is_covered or (recovers and not has_age):
        raise Told(f"fault C7 {disk.half(root.epoch)}")


# ---- the whole disk


def check(image):
    """How many data blocks no root of a sound image reaches. Each group of faults is looked for in all roots before the next."""
    disk = Disk(image)
    slot, root = newest(disk)
    roots, marks = roots_of(slot, root), Marks(disk)
    for each in roots:
        check_root(marks, each)
    check_map(marks, slot)
    for each in roots:
        check_links(disk, each)
    free = marks.words[disk.first_data :].count(0)
    check_log(disk, slot, root, free)
    return free


def answer(image):
    """The line that a check of these bytes prints."""
    try:
        return f"clean {check(image)}"
    except Told as told:
        return str(told)


def status_of(line):
    """The status that a check ends with behind this line."""
    return {"clean": 0, "fault": 3}.get(line.split()[0], 1)


# ---- tables of cases


def laid_out(words):
    """The bytes of a case: a new disk of so many blocks with runs of bytes over it, each as AT:HEX."""
    blocks, *runs = words.split()
    image = bytearray(BLOCK * int(blocks))
    for at, data in image_of(Tree(), int(blocks)).written.items():
        image[BLOCK * at : BLOCK * (at + 1)] = data
    for run in runs:
        at, data = run.split(":")
        image[int(at) : int(at) + len(data) // 2] = bytes.fromhex(data)
    return bytes(image)


def agrees(wanted, told):
    """Whether the line of a check fits a table's answer: that of a check, or of a mount, which begins with one."""
    if wanted.startswith("ok"):
        return told.startswith("clean")
    if wanted.startswith("M4"):
        return told == wanted.replace("M4", "fault")
    if wanted.startswith("M"):
        return told == f"snapfs: {wanted}"
    return told == wanted


def compare(path):
    """Compares each case of a table, prints those that differ and how many there are, and answers whether none does."""
    lines = [line for line in Path(path).read_text().splitlines() if line and not line.startswith("#")]
    wrong = 0
    for line in lines:
        words, wanted = (part.strip() for part in line.split("=>"))
        told = answer(laid_out(words))
        if not agrees(wanted, told):
            wrong += 1
            print(f"wrong: {words[:200]} => {told}, and not {wanted}")
    print(f"{path}: {len(lines)} cases, {wrong} wrong")
    return wrong == 0


def main():
    if sys.argv[1:2] == ["--table"]:
        sys.exit(0 if all([compare(path) for path in sys.argv[2:]]) else 1)
    lines = [answer(Path(path).read_bytes()) for path in sys.argv[1:]]
    print("\n".join(lines))
    sys.exit(max(map(status_of, lines), key=[0, 3, 1].index))


if __name__ == "__main__":
    main()
