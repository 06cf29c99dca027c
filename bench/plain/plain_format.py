"""What the blocks of an image spell, read by docs/FORMAT.md alone and without any code of snapfs.

Each reader answers the value, or None where the bytes spell none of its kind. plain_check.py says when an image is sound.
"""

import re
import struct
from collections import namedtuple

from made_image import BLOCK, DIRECT, INLINE, POINTERS

SECTOR = 512
RECORD = 128

FILE, DIRECTORY = 1, 2
DOTS = (b".", b"..")
USER_OBJ, USER, GROUP_OBJ, GROUP, MASK, OTHER = range(1, 7)

FEWEST_BLOCKS, MOST_BLOCKS = 256, 1_048_576
MOST_AGE = 2**62
MOST_LINKS = 32_767
MOST_NAMED_ENTRIES = 32
MOST_WRITTEN, MOST_PAYLOAD = 65_536, 65_547


# What each version has: the bytes of its largest file, its snapshots, the largest bit of which is the same number, and the blocks
# that a change is charged for each inode and for each block.
Limits = namedtuple("Limits", "largest_file snapshots inode_charge block_charge")
VERSIONS = {1: Limits(67_108_864, 20, 8, 2), 2: Limits(68_719_476_736, 31, 10, 3)}


def number(data, at, width):
    """The unsigned number of so many bytes at a place, whose lowest byte stands first."""
    return int.from_bytes(data[at : at + width], "little")


def are_zeros(data):
    return data.count(0) == len(data)


def pointers_in(block):
    """An indirect block's pointers, or a block of map words: any bytes spell them."""
    return struct.unpack(f"<{POINTERS}I", block)


# ---- the disk and its roots


def superblock(block):
    """How many blocks the disk has."""
    blocks = number(block, 8, 4)
    is_spelled = block[:8] == b"SNAPFSYS" and are_zeros(block[12:])
    return blocks if is_spelled and FEWEST_BLOCKS <= blocks <= MOST_BLOCKS else None


class BlockTree(namedtuple("BlockTree", "size pointers")):
    """A size in bytes, and the sixteen pointers under which they lie."""

    def levels(self):
        """How many levels of indirect blocks stand between the sixteen pointers and the data blocks."""
        levels = 0
        while self.size > DIRECT * BLOCK * POINTERS**levels:
            levels += 1
        return levels

    def span(self, depth):
        """How many bytes lie below a pointer that stands so many levels below the sixteen."""
        return BLOCK * POINTERS ** (self.levels() - depth)


def block_tree(data, at):
    """The 72 bytes of a root of blocks: any bytes spell one."""
    return BlockTree(number(data, at, 8), struct.unpack_from(f"<{DIRECT}I", data, at + 8))


Snapshot = namedtuple("Snapshot", "bit name tree")
RootBody = namedtuple("RootBody", "version generation epoch inode_file snapshots")


def snapshot(data, largest_bit):
    """The 112 bytes of a snapshot in a root body."""
    name, behind = data[2 : 2 + data[1]], data[2 + data[1] : 40]
    is_name_of_one = re.fullmatch(rb"[A-Za-z0-9._-]{1,31}", name) is not None and name not in DOTS
    if not 1 <= data[0] <= largest_bit or not is_name_of_one or not are_zeros(behind):
        return None
    return Snapshot(data[0], name, block_tree(data, 40))


def root_body(block):
    """A root body of any version."""
    version, generation, epoch, count = number(block, 0, 4), number(block, 8, 8), number(block, 16, 8), number(block, 24, 4)
    if version not in VERSIONS or not are_zeros(block[4:8] + block[28:32] + block[104:624]):
        return None
    most = VERSIONS[version].snapshots
    if not 1 <= generation <= MOST_AGE or not 1 <= epoch <= MOST_AGE or count > most:
        return None
    end = 624 + 112 * count
    snapshots = [snapshot(block[at : at + 112], most) for at in range(624, end, 112)]
    if None in snapshots or not are_zeros(block[end:]):
        return None
    bits, names = [each.bit for each in snapshots], {each.name for each in snapshots}
    if bits != sorted(set(bits)) or len(names) < count:
        return None
    return RootBody(version, generation, epoch, block_tree(block, 32), snapshots)


# ---- inodes and what they name

# What a check asks of a record. The tree is None where the bytes of a file lie in the record itself.
Inode = namedtuple("Inode", "kind links acl_block tree")

# Entries in canonical order rise by tag, and those of one tag by the user or the group. The lists of an inode are told by
# how many entries they have: the access ACL without those of the mode, and the default ACL.
Entry = namedtuple("Entry", "tag qualifier")
Acls = namedtuple("Acls", "access default")


def is_tree_of(limits, kind, tree):
    """Whether a file with more bytes than its record holds, or a directory, can have this tree: no pointer stands past its size."""
    is_size = tree.size > INLINE if kind == FILE else tree.size % BLOCK == 0
    ends = all(pointer == 0 or place * tree.span(0) < tree.size for place, pointer in enumerate(tree.pointers))
    return is_size and tree.size <= limits.largest_file and ends


def inode(limits, record):
    """A record that is in use, by the limits of its root. One of zeros is unused, and no inode."""
    kind, bits, rights, links = record[0], record[1], number(record, 2, 2), number(record, 4, 2)
    size, acl_block = number(record, 16, 8), number(record, 24, 4)
    if kind not in (FILE, DIRECTORY) or bits > 3 or rights > 0o777 or not are_zeros(record[6:8] + record[28:64]):
        return None
    if links > MOST_LINKS or (kind == DIRECTORY and links != 1):
        return None
    if kind == FILE and size <= INLINE:
        return Inode(kind, links, acl_block, None) if are_zeros(record[64 + size :]) else None
    tree = BlockTree(size, struct.unpack_from(f"<{DIRECT}I", record, 64))
    return Inode(kind, links, acl_block, tree) if is_tree_of(limits, kind, tree) else None


def acl_entries(data):
    """The entries in 8 bytes each."""
    entries = []
    for at in range(0, len(data), 8):
        tag, permissions, qualifier = data[at], data[at + 1], number(data, at + 4, 4)
        if not USER_OBJ <= tag <= OTHER or permissions > 7 or not are_zeros(data[at + 2 : at + 4]):
            return None
        if qualifier != 0 and tag not in (USER, GROUP):
            return None
        entries.append(Entry(tag, qualifier))
    return entries


def is_acl(entries):
    """Whether the entries are a valid ACL in canonical order, in which none stands twice."""
    tags = [entry.tag for entry in entries]
    named = tags.count(USER) + tags.count(GROUP)
    return (
        entries == sorted(set(entries))
        and all(tags.count(tag) == 1 for tag in (USER_OBJ, GROUP_OBJ, OTHER))
        and named <= MOST_NAMED_ENTRIES
        and tags.count(MASK) <= 1
        and (named == 0 or MASK in tags)
    )


def acls(counts, data):
    """Two lists, either of which may be empty, of which two bytes tell the lengths."""
    entries = acl_entries(data)
    if entries is None:
        return None
    named, default = entries[: counts[0]], entries[counts[0] :]
    # The first list is an access ACL with the three entries that the mode holds among it.
    is_access = named == sorted(named) and is_acl(sorted(named + [Entry(tag, 0) for tag in (USER_OBJ, GROUP_OBJ, OTHER)]))
    return Acls(*counts) if is_access and (not default or is_acl(default)) else None


def acl_block(block):
    """The ACLs of an inode, not both of them empty."""
    end = 8 + 8 * (block[0] + block[1])
    if end == 8 or not are_zeros(block[2:8] + block[end:]):
        return None
    return acls(block[:2], block[8:end])


def is_name(name):
    """Whether a directory can have the name: printable bytes without the space and the slash."""
    return re.fullmatch(rb"[\x21-\x2e\x30-\x7e]{1,255}", name) is not None and name not in DOTS


def names_in(block):
    """The names in a directory block, each as a number and its bytes."""
    names, at = [], 0
    while at < BLOCK and not are_zeros(block[at:]):
        inode_number, length = number(block, at, 2), number(block, at + 2, 1)
        name = block[at + 3 : at + 3 + length]
        if inode_number < 2 or len(name) < length or not is_name(name):
            return None
        names.append((inode_number, name))
        at += 3 + length
    return names


# ---- the records of the log

Make = namedtuple("Make", "directory number kind acls name")
Link = namedtuple("Link", "directory number name")
Remove = namedtuple("Remove", "directory name")
Rename = namedtuple("Rename", "old_directory new_directory old_name new_name")
Write = namedtuple("Write", "number offset count")
SetSize = namedtuple("SetSize", "number size")
SetAttributes = namedtuple("SetAttributes", "number acls")


class Misspelt(Exception):
    """The bytes that are read from their front spell no change."""


class Front:
    """The bytes of a payload, of which each field takes its own from the front."""

    def __init__(self, data):
        self.rest = data

    def take(self, count):
        if len(self.rest) < count:
            raise Misspelt
        taken, self.rest = self.rest[:count], self.rest[count:]
        return taken

    def number(self, width, least=0, most=2**64 - 1):
        value = number(self.take(width), 0, width)
        if not least <= value <= most:
            raise Misspelt
        return value

    def name(self):
        name = self.take(self.number(1))
        if not is_name(name):
            raise Misspelt
        return name

    def ownership(self):
        """S bits, rights, owner, group and both lists, of which the lists alone matter to a check."""
        self.number(1, most=3)
        self.number(2, most=0o777)
        self.take(8)
        counts = self.take(2)
        lists = acls(counts, self.take(8 * sum(counts)))
        if lists is None:
            raise Misspelt
        return lists

    def count_of_rest(self):
        """How many bytes are written, which are all that is left."""
        count = len(self.take(len(self.rest)))
        if not 1 <= count <= MOST_WRITTEN:
            raise Misspelt
        return count

    def two(self):
        return self.number(2)

    def eight(self):
        return self.number(8)

    def kind(self):
        return self.number(1, FILE, DIRECTORY)


# Each change by its first byte, and how its fields are read, in order.
CHANGES = {
    1: (Make, (Front.two, Front.two, Front.kind, Front.ownership, Front.name)),
    2: (Link, (Front.two, Front.two, Front.name)),
    3: (Remove, (Front.two, Front.name)),
    4: (Rename, (Front.two, Front.two, Front.name, Front.name)),
    5: (Write, (Front.two, Front.eight, Front.count_of_rest)),
    6: (SetSize, (Front.two, Front.eight)),
    7: (SetAttributes, (Front.two, Front.ownership)),
}


def change(payload):
    """The change that a payload is, all of whose bytes are of its fields."""
    front = Front(payload)
    try:
        made, fields = CHANGES[front.number(1, min(CHANGES), max(CHANGES))]
        found = made(*(field(front) for field in fields))
        return None if front.rest else found
    except Misspelt:
        return None


# The change of a record, and how many sectors its body takes.
LogBody = namedtuple("LogBody", "change sectors")


def log_body(data, sequence):
    """The body that bytes begin with which are all that it has room for, behind so many records of its epoch."""
    length = number(data, 12, 4)
    sectors = (16 + length + SECTOR - 1) // SECTOR
    if number(data, 8, 4) != sequence or not 1 <= length <= MOST_PAYLOAD or len(data) < SECTOR * sectors:
        return None
    found = change(data[16 : 16 + length])
    if found is None or not are_zeros(data[16 + length : SECTOR * sectors]):
        return None
    return LogBody(found, sectors)
