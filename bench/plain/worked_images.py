"""Sound images to change bytes of: some are made by runs of the program, the others by docs/FORMAT.md alone.

Each has something that no other one has: a new disk; a tree with ACLs, holes and indirect blocks, and two roots; a file
without a name; records of the log on top of a root, of one epoch or of two; snapshots; an inode file and a directory
that have indirect blocks themselves; and a root of the last generation.
"""

import struct
import subprocess

from made_image import BLOCK, Tree, image_of, inode_file
from plain_format import DIRECTORY, FILE, GROUP, GROUP_OBJ, MASK, OTHER, SECTOR, USER, USER_OBJ

MOST_WRITES = 1 << 16

WORKED = f"""\
0 login 0 0 -
0 umask 0000
0 mkdir /shared 0777
0 setacl /shared d u::rwx,u:1001:rwx,g::r-x,m::rwx,o::r-x
0 setacl /shared a u::rwx,u:1001:r-x,g::r-x,g:50:rwx,m::rwx,o::---
0 mkdir /shared/heir 0755
0 chmod /shared/heir 2755
0 mkdir /shared/heir/below 0700
0 mkdir /gone 0755
0 mkdir /emptx 0755
0 mkdir /emptx/child 0755
0 mkdir /shared/inlinf 0755
0 open /shared/inline wc 0644
0 write 0 {"61" * 40}
0 close 0
0 setacl /shared/inline a u::rw-,u:7:rw-,u:1001:r--,g::---,m::rw-,o::---
0 open /small wc 0600
0 write 0 {"62" * 5000}
0 close 0
0 link /small /shared/again
0 link /small /shared/heir/third
0 open /large wc 0644
0 write 0 {"63" * 65536}
0 write 0 {"64" * 4500}
0 close 0
0 sync
0 open /sparse wc 0644
0 seek 0 5242880
0 write 0 {"65" * 3}
0 seek 0 9000
0 write 0 {"66" * 9000}
0 close 0
0 rmdir /gone
0 chown /small 1001 100
"""

NAMELESS = f"""\
0 login 0 0 -
0 open /lost rwc 0644
0 write 0 {"67" * 9000}
0 open /here wc 0644
0 unlink /lost
0 sync
"""

LOGGED = f"""\
0 login 0 0 -
0 mkdir /logged 0750
0 mkdir /logged/one 0700
0 open /logged/file wc 0644
0 write 0 {"68" * 700}
0 ftruncate 0 100
0 link /logged/file /logged/one/link
0 mkdir /shared/made 0755
0 rename /logged/one /shared/moved
0 chmod /shared/moved 1777
0 setacl /logged d u::rwx,u:9:r--,g::r-x,m::r-x,o::---
0 rename /shared/again /shared/inline
0 open /shared/heir/third rw
0 unlink /shared/heir/third
0 write 1 {"69" * 20}
0 mkdir /empty 0755
0 rmdir /empty
0 unlink /large
"""


class Program:
    """The program, working on images in a folder."""

    def __init__(self, path, folder):
        self.path = path
        self.folder = folder

    def run(self, *words):
        """What the program prints with these words."""
        done = subprocess.run([self.path, *words], cwd=self.folder, capture_output=True, text=True)
        if done.returncode != 0:
            raise RuntimeError(f"{' '.join(words)}: {done.stdout[-200:]}{done.stderr}")
        return done.stdout

    def new(self, name, blocks):
        self.run("mkfs", name, str(blocks))

    def script(self, text):
        (self.folder / "script").write_text(text)
        return "script"

    def work(self, name, text):
        """Runs a script of which each line has to be answered with ok."""
        told = self.run("run", name, self.script(text))
        if any(not line.startswith("ok") for line in told.splitlines()):
            raise RuntimeError(f"a reply that isn't ok: {told}")

    def cut(self, name, text, left):
        """Leaves what a crash leaves right behind the last line of a script, before the unmount has written anything."""
        self.script(text)
        few, many = 0, MOST_WRITES
        while few < many:
            middle = (few + many) // 2
            told = self.run("stop-at", str(middle), "junk", name, "script", left).splitlines()
            if len(told) == text.count("\n") and told[-1].startswith("ok"):
                many = middle
            else:
                few = middle + 1
        self.run("stop-at", str(many), "junk", name, "script", left)


def worked_bytes(program):
    """The images that the program makes, by their names."""
    program.new("fresh", 256)
    program.new("worked", 512)
    program.work("worked", WORKED)
    program.cut("worked", NAMELESS, "nameless")
    program.cut("worked", LOGGED, "logged")
    return {name: (program.folder / name).read_bytes() for name in ("fresh", "worked", "nameless", "logged")}


# ---- made by hand


def whole(image):
    """All bytes of an image."""
    data = bytearray(BLOCK * image.blocks)
    for at, block in image.written.items():
        data[BLOCK * at : BLOCK * (at + 1)] = block
    return data


def entries(*listed):
    """Entries of ACLs, each as its tag, its permissions and its user or group."""
    return b"".join(struct.pack("<BBHI", tag, permissions, 0, qualifier) for tag, permissions, qualifier in listed)


ACCESS = entries((USER, 6, 7), (GROUP, 4, 50), (GROUP, 5, 60), (MASK, 7, 0))
DEFAULT = entries((USER_OBJ, 7, 0), (USER, 1, 1001), (GROUP_OBJ, 5, 0), (MASK, 5, 0), (OTHER, 0, 0))


def some_tree():
    """Files and directories some levels deep, with ACLs, a hard link, a file of two blocks and one without a name."""
    tree = Tree()
    folder = tree.add_directory(2, "folder")
    inner = tree.add_directory(folder, "inner")
    short = tree.add_file(inner, "short", b"in the record")
    both = tree.add_file(2, "both", b"block" * 1000)
    tree.nodes[inner][3].append((both, b"link"))
    tree.nodes[both][2] = 2
    tree.nodes[inner].append(struct.pack("<BB6x", 4, 5) + ACCESS + DEFAULT)
    tree.nodes[short].append(struct.pack("<BB6x", 4, 0) + ACCESS)
    tree.nodes[7] = [FILE, 0o600, 0, b"nameless" * 10]
    # A name that is one byte away from the one that the root directory can't have.
    tree.add_file(2, ".snapshos", b"")
    return tree


def wide():
    """An inode file and a directory with more blocks than sixteen, and a file with indirect blocks and holes."""
    tree = Tree()
    folder = tree.add_directory(2, "folder")
    for count in range(560):
        tree.add_file(folder, f"{count:0120}", b"%d" % count)
    tree.add_file(folder, "large", b"large" * 20000)
    return whole(image_of(tree, 1024))


def snapshots():
    """A live tree, a snapshot of it with bit 3, and one of another tree with bit 5."""
    image = image_of(some_tree(), 256)
    live = range(70, image.next)
    frozen = some_tree()
    frozen.add_file(2, "frozen", b"f" * 70000)
    other = inode_file(image, frozen)
    words = [1 << 0 | 1 << 3 if block in live else 1 << 5 if 70 <= block < image.next else 0 for block in range(256)]
    image.put(4, struct.pack("<256I", *words))
    same = image.written[1][32:104]
    body = bytearray(image.written[1])
    body[24:28] = struct.pack("<I", 2)
    for place, (bit, name, tree) in enumerate([(3, b"same", same), (5, b"other.1", other)]):
        at = 624 + 112 * place
        body[at : at + 112] = struct.pack("<BB38s", bit, len(name), name) + tree
    image.put(1, body)
    return whole(image)


def name(text):
    return bytes([len(text)]) + text


def make(directory, number, kind, text, acls=b"\0\0"):
    """The payload of a record that makes a file or a directory."""
    return struct.pack("<BHHBBHII", 1, directory, number, kind, 0, 0o755, 0, 0) + acls + name(text)


def put_records(data, half, epoch, payloads):
    """Records of an epoch from the first place of a half on, which begins at this block."""
    at = BLOCK * half
    for sequence, payload in enumerate(payloads):
        body = struct.pack("<QII", epoch, sequence, len(payload)) + payload
        body = body.ljust((len(body) + SECTOR - 1) // SECTOR * SECTOR, b"\0")
        data[at] = 1
        data[at + SECTOR : at + SECTOR + len(body)] = body
        at += SECTOR + len(body)


def epochs():
    """Records of the root's epoch and of the next one, on top of a tree. An older root stands in the other slot, which needs no tree."""
    # All that is free is charged.
    data = whole(image_of(some_tree(), 306))
    data[2 * BLOCK : 2 * BLOCK + 24] = data[BLOCK : BLOCK + 24]
    data[BLOCK + 8] = 2
    data[3 * BLOCK + SECTOR] = 1
    mask = bytes([1, 0]) + entries((MASK, 7, 0))
    older = [
        make(2, 9, DIRECTORY, b"new", mask),
        make(9, 10, FILE, b"file"),
        struct.pack("<BHQ", 5, 10, 7000) + b"x" * 1100,
        struct.pack("<BHH", 2, 9, 10) + name(b"two"),
    ]
    newer = [
        struct.pack("<BHH", 4, 3, 9) + name(b"inner") + name(b"moved"),
        struct.pack("<BH", 3, 9) + name(b"two"),
        struct.pack("<BHQ", 6, 10, 70000),
        struct.pack("<BHBHII", 7, 3, 3, 0o700, 5, 6) + mask,
        make(2, 11, DIRECTORY, b"last"),
    ]
    put_records(data, 38, 1, older)
    put_records(data, 6, 2, newer)
    return data


def aged():
    """A root behind which no other can come, and a record behind a gate that is closed: nothing is to recover."""
    data = whole(image_of(Tree(), 256))
    data[BLOCK + 8 : BLOCK + 16] = struct.pack("<Q", 1 << 62)
    put_records(data, 38, 1, [make(2, 3, DIRECTORY, b"new")])
    data[38 * BLOCK] = 0
    return data


def made_bytes():
    """The images that no program makes, by their names."""
    return {"wide": bytes(wide()), "snapshots": bytes(snapshots()), "epochs": bytes(epochs()), "aged": bytes(aged())}
