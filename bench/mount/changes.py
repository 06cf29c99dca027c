#!/usr/bin/env python3
"""Makes drawn changes on a mount until its program is killed, and looks whether what is there later is what was answered.

    changes.py make DIR STATE SEED       changes the tree at DIR, which is empty or that of STATE, until a call finds nobody who serves it
    changes.py compare DIR STATE SEED    the tree at DIR has to be what was answered, or that with the call in flight; it is then that of STATE

A call is one message: what is written lies in one page. The changes are drawn from the tree and the seed alone, so STATE has the tree at first, and
STATE.answered a byte for each call that was answered. `compare` prints how many these are.
"""

import errno
import hashlib
import os
import pickle
import random
import sys

NAMES = [f"n{number}" for number in range(12)]
GONE = (errno.ENOTCONN, errno.ECONNABORTED)


class Node:
    """A directory, which has names, or a file, which has bytes."""

    def __init__(self, is_directory):
        self.names = {} if is_directory else None
        self.data = None if is_directory else b""
        self.mode = 0o755 if is_directory else 0o644
        self.owner = 0


def directories(node, path=""):
    """The paths of all directories below a node and of itself."""
    yield path, node
    for name, below in sorted(node.names.items()):
        if below.names is not None:
            yield from directories(below, f"{path}/{name}")


def told(node, path="", seen=None):
    """What is told of a tree: a line for each path. Names of one file have one number."""
    seen = {} if seen is None else seen
    kind = "d" if node.names is not None else "f"
    number = seen.setdefault(id(node), len(seen))
    data = "" if node.data is None else hashlib.sha256(node.data).hexdigest()[:16]
    yield f"{path} {kind} {node.mode:o} {node.owner} {number if kind == 'f' else ''} {data}"
    for name in sorted(node.names or ()):
        yield from told(node.names[name], f"{path}/{name}", seen)


def found(top):
    """The tree that is mounted. Two names with one number are of one file."""
    numbers = {}

    def look(path):
        about = os.lstat(path)
        if about.st_ino in numbers:
            return numbers[about.st_ino]
        node = numbers[about.st_ino] = Node(os.path.isdir(path))
        node.mode, node.owner = about.st_mode & 0o7777, about.st_uid
        if node.names is not None:
            node.names = {name: look(f"{path}/{name}") for name in sorted(os.listdir(path))}
        else:
            with open(path, "rb") as file:
                node.data = file.read()
        return node

    return look(top)


class Tree:
    """The tree, and the changes that are drawn of it."""

    def __init__(self, top, draw, root):
        self.top, self.draw, self.root = top, draw, root

    def directory(self):
        return self.draw.choice(list(directories(self.root)))

    def name(self):
        path, node = self.directory()
        return f"{path}/{self.draw.choice(NAMES)}", node

    def some(self, wants_directory):
        """A path that is there, of a file or of a directory."""
        all_of = [
            (f"{path}/{name}", node, name)
            for path, node in directories(self.root)
            for name, below in sorted(node.names.items())
            if (below.names is not None) == wants_directory
        ]
        return self.draw.choice(all_of) if all_of else None

    # Each draws a change, and gives the call of the system with what it does to the tree, or nothing.

    def make_directory(self):
        path, node = self.name()
        if path.count("/") > 4 or path.rsplit("/", 1)[1] in node.names:
            return None
        return lambda: os.mkdir(self.top + path, 0o755), lambda: node.names.update({path.rsplit("/", 1)[1]: Node(True)})

    def make_file(self):
        path, node = self.name()
        name = path.rsplit("/", 1)[1]
        if name in node.names:
            return None
        return lambda: os.close(os.open(self.top + path, os.O_CREAT | os.O_EXCL | os.O_WRONLY, 0o644)), lambda: node.names.update({name: Node(False)})

    def write(self):
        it = self.some(False)
        if it is None:
            return None
        path, parent, name = it
        file = parent.names[name]
        page = self.draw.randrange(6)
        start = 4096 * page + self.draw.randrange(1000)
        data = self.draw.randbytes(self.draw.randrange(1, 3000))

        def change():
            whole = file.data.ljust(start, b"\0")
            file.data = whole[:start] + data + whole[start + len(data) :]

        def call():
            opened = os.open(self.top + path, os.O_WRONLY)
            try:
                os.pwrite(opened, data, start)
            finally:
                os.close(opened)

        return call, change

    def cut(self):
        it = self.some(False)
        if it is None:
            return None
        path, parent, name = it
        file, size = parent.names[name], self.draw.randrange(30_000)

        def change():
            file.data = file.data[:size].ljust(size, b"\0")

        return lambda: os.truncate(self.top + path, size), change

    def link(self):
        it, (path, node) = self.some(False), self.name()
        name = path.rsplit("/", 1)[1]
        if it is None or name in node.names:
            return None
        return lambda: os.link(self.top + it[0], self.top + path), lambda: node.names.update({name: it[1].names[it[2]]})

    def remove(self):
        it = self.some(False)
        if it is None:
            return None
        return lambda: os.unlink(self.top + it[0]), lambda: it[1].names.pop(it[2])

    def remove_directory(self):
        it = self.some(True)
        if it is None or it[1].names[it[2]].names:
            return None
        return lambda: os.rmdir(self.top + it[0]), lambda: it[1].names.pop(it[2])

    def rename(self):
        it, (path, node) = self.some(self.draw.random() < 0.4), self.name()
        name = path.rsplit("/", 1)[1]
        if it is None or (path + "/").startswith(it[0] + "/"):
            return None
        old, there = it[1].names[it[2]], node.names.get(name)
        if there is not None and (there.names or (there.names is None) != (old.names is None) or there is old):
            return None

        def change():
            it[1].names.pop(it[2])
            node.names[name] = old

        return lambda: os.rename(self.top + it[0], self.top + path), change

    def set_mode(self):
        it = self.some(self.draw.random() < 0.5)
        if it is None:
            return None
        node, mode = it[1].names[it[2]], self.draw.randrange(0o1000)
        return lambda: os.chmod(self.top + it[0], mode), lambda: setattr(node, "mode", mode)

    def give(self):
        it = self.some(self.draw.random() < 0.5)
        if it is None:
            return None
        node, owner = it[1].names[it[2]], self.draw.randrange(2000)
        return lambda: os.chown(self.top + it[0], owner, -1), lambda: setattr(node, "owner", owner)

    def change(self):
        """Draws a change until one can be made."""
        ways = (self.make_directory, self.make_file, self.make_file, self.write, self.write, self.write, self.cut, self.link)
        ways += (self.remove, self.remove_directory, self.rename, self.rename, self.set_mode, self.give)
        while True:
            drawn = self.draw.choice(ways)()
            if drawn is not None:
                return drawn


def tree_of(top, state, seed):
    """The tree of STATE, of which changes are drawn."""
    try:
        with open(state, "rb") as file:
            root = pickle.load(file)
    except FileNotFoundError:
        root = Node(True)
    return Tree(top, random.Random(seed), root)


def make(top, state, seed):
    tree = tree_of(top, state, seed)
    with open(state + ".answered", "wb", buffering=0) as answered:
        while True:
            call, change = tree.change()
            try:
                call()
            except OSError as error:
                if error.errno in GONE:
                    return 0
                print(f"a call failed: {error}")
                return 1
            answered.write(b".")
            change()


def compare(top, state, seed):
    tree = tree_of(top, state, seed)
    answered = os.path.getsize(state + ".answered")
    for _ in range(answered):
        tree.change()[1]()
    before = list(told(tree.root))
    tree.change()[1]()
    root = found(top)
    there = list(told(root))
    if there not in (before, list(told(tree.root))):
        print("\n".join(sorted(set(there) ^ set(before))[:8]))
        return 1
    with open(state, "wb") as file:
        pickle.dump(root, file)
    print(answered)
    return 0


if __name__ == "__main__":
    done = {"make": make, "compare": compare}[sys.argv[1]](sys.argv[2], sys.argv[3], int(sys.argv[4]))
    sys.exit(done)
