"""Writes images of snapfs by docs/FORMAT.md, without any of its code: a tree of directories and files, whose root is the first.

Names are given in sorted order or not; each directory's lie in its blocks in the order in which they were made. What is made
belongs to 0:0, directories with mode 0755 and files with 0644.
"""

import struct

BLOCK = 4096
DIRECT = 16
POINTERS = 1024
INLINE = 64
# The version of the root.
VERSION = 2


class Tree:
    """What an image holds: inodes by number, each with its kind, its mode, its links and its bytes or names, and the bytes of its ACL
    block, where it has one."""

    def __init__(self):
        self.nodes = {2: [2, 0o755, 1, []]}

    def add_directory(self, directory, name):
        return self.add(directory, name, [2, 0o755, 1, []])

    def add_file(self, directory, name, data):
        return self.add(directory, name, [1, 0o644, 1, data])

    def add(self, directory, name, node):
        number = len(self.nodes) + 2
        self.nodes[number] = node
        self.nodes[directory][3].append((number, name.encode()))
        return number

    def add_link(self, directory, name, number):
        """One more name of a file."""
        self.nodes[number][2] += 1
        self.nodes[directory][3].append((number, name.encode()))


class Image:
    """Blocks of an image by their numbers, of which the data area is filled from its front; the others are zeros."""

    def __init__(self, blocks):
        self.blocks = blocks
        self.map_blocks = (blocks + POINTERS - 1) // POINTERS
        self.written = {}
        self.next = 68 + 2 * self.map_blocks

    def put(self, at, data):
        self.written[at] = bytes(data).ljust(BLOCK, b"\0")

    def take(self, data):
        """A block of the data area with these bytes."""
        at = self.next
        if at >= self.blocks:
            raise ValueError("the image is full")
        self.next += 1
        self.put(at, data)
        return at

    def pointers(self, data):
        """The sixteen pointers of a tree that has these bytes."""
        level = [self.take(data[at : at + BLOCK]) for at in range(0, len(data), BLOCK)]
        while len(level) > DIRECT:
            level = [
                self.take(struct.pack(f"<{len(part)}I", *part))
                for part in (level[at : at + POINTERS] for at in range(0, len(level), POINTERS))
            ]
        return struct.pack("<16I", *level, *[0] * (DIRECT - len(level)))


def directory_bytes(names):
    """The blocks of a directory."""
    blocks = [bytearray()]
    for number, name in names:
        record = struct.pack("<HB", number, len(name)) + name
        if len(blocks[-1]) + len(record) > BLOCK:
            blocks.append(bytearray())
        blocks[-1] += record
    return b"".join(bytes(block.ljust(BLOCK, b"\0")) for block in blocks) if names else b""


def record_of(image, node):
    """The 128 bytes of an inode, whose content is put into the image."""
    kind, mode, links, held, *acls = node
    data = directory_bytes(held) if kind == 2 else held
    inline = kind == 1 and len(data) <= INLINE
    content = data.ljust(INLINE, b"\0") if inline else image.pointers(data)
    head = struct.pack("<BBHH2xIIQI", kind, 0, mode, links, 0, 0, len(data), image.take(acls[0]) if acls else 0)
    return head.ljust(64, b"\0") + content


def inode_file(image, tree):
    """The root of the inode file of a tree, whose blocks are put into the image."""
    inodes = bytearray(128 * (max(tree.nodes) + 1))
    for number, node in tree.nodes.items():
        inodes[128 * number : 128 * (number + 1)] = record_of(image, node)
    inodes = bytes(inodes).ljust((len(inodes) + BLOCK - 1) // BLOCK * BLOCK, b"\0")
    return struct.pack("<Q", len(inodes)) + image.pointers(inodes)


def image_of(tree, blocks):
    """An image of so many blocks that holds a tree, with an empty log."""
    image = Image(blocks)
    root = inode_file(image, tree)
    image.put(0, b"SNAPFSYS" + struct.pack("<I", blocks))
    image.put(1, (struct.pack("<I4xQQI4x", VERSION, 1, 1, 0) + root))
    image.put(3, b"\1")
    first = 68 + 2 * image.map_blocks
    words = b"".join(struct.pack("<I", first <= block < image.next) for block in range(image.next))
    for at in range(0, len(words), BLOCK):
        image.put(4 + at // BLOCK, words[at : at + BLOCK])
    return image


def write_image(path, tree, blocks):
    """Writes it to a file, which has holes where nothing was put."""
    with open(path, "wb") as file:
        for at, data in image_of(tree, blocks).written.items():
            file.seek(at * BLOCK)
            file.write(data)
        file.truncate(blocks * BLOCK)
