"""A plain name tree in memory, which answers the calls of user 0 by docs/RULES.md and docs/SCRIPT.md alone.

It knows no device: no call finds the disk full, and a point, which each step ends, changes nothing. A snapshot is a copy of the
tree, and so is the live tree behind a restore: a file that has no name isn't copied. Below `/.snapshot/NAME` it answers what reads alone.
Arguments that no call takes and sessions of other users aren't there, since its callers draw none.
"""

import copy

LARGEST_FILE, DESCRIPTORS, MOST_SNAPSHOTS = 68_719_476_736, 64, 31
FROZEN = "/.snapshot/"
SET_GROUP = 0o2000


class Refused(Exception):
    """A call that changes nothing, by its errno."""


def rights(bits):
    return "".join(letter if bits & bit else "-" for bit, letter in ((4, "r"), (2, "w"), (1, "x")))


def bits_of(letters):
    return sum(bit for bit, letter in zip((4, 2, 1), letters) if letter != "-")


class Acl:
    """An ACL as the rights of each entry, by the front of its text, as `u:7`, in the order of the text."""

    def __init__(self, text):
        self.entries = dict(entry.rsplit(":", 1) for entry in text.split(","))

    def of_mode(self):
        """The entries of the three digits of a mode."""
        return ("u:", "m:" if "m:" in self.entries else "g:", "o:")

    def mode(self):
        owner, group, other = (bits_of(self.entries[key]) for key in self.of_mode())
        return owner << 6 | group << 3 | other

    def with_mode(self, mode):
        """The ACL with these three digits."""
        found = Acl(self.text())
        for key, shift in zip(self.of_mode(), (6, 3, 0)):
            found.entries[key] = rights(mode >> shift & 7)
        return found

    def text(self):
        return ",".join(f"{key}:{granted}" for key, granted in self.entries.items())


class Node:
    """A directory, which has names, or a file, which has bytes."""

    def __init__(self, is_directory, acl, group, special):
        self.names = {} if is_directory else None
        self.data = None if is_directory else bytearray()
        self.acl, self.default, self.owner, self.group, self.special, self.links = acl, None, 0, group, special, 1

    def told(self):
        kind, size = ("f", len(self.data)) if self.names is None else ("d", 0)
        return f"ok {kind} {self.special | self.acl.mode():04o} {self.links} {self.owner} {self.group} {size}"


class Open:
    """A descriptor, of a file of the live tree or of that of a snapshot."""

    def __init__(self, node, flags, snapshot):
        self.node, self.flags, self.offset, self.snapshot = node, flags, 0, snapshot


class World:
    """The tree, those of the snapshots by their names, and the sessions with their umask and their descriptors."""

    def __init__(self):
        self.root = Node(True, Acl("u::rwx,g::r-x,o::r-x"), 0, 0)
        self.snapshots, self.sessions = {}, {}

    def answer(self, line):
        """Carries out a line of a script, and gives its reply."""
        if line == "step":
            return "ok done"
        if line == "restart":
            self.crash()
            return "ok"
        session, call, *words = line.split(" ")
        try:
            return getattr(self, f"call_{call.replace('-', '_')}")(int(session), *words)
        except Refused as refused:
            return f"err {refused}"

    def crash(self):
        """Ends all sessions, and with them the files without names."""
        self.sessions = {}

    # ---- paths

    @staticmethod
    def snapshot_of(path):
        """The name of the snapshot that a path leads into, or None."""
        return path[len(FROZEN) :].split("/")[0] if path.startswith(FROZEN) else None

    def walk(self, path):
        """The directory of the last name, that name, and what it stands for, or None; of `/` itself, with no name."""
        snapshot = self.snapshot_of(path)
        if snapshot is not None:
            return self.walk_from(self.snapshots.get(snapshot), path[len(FROZEN + snapshot) :] or "/")
        return self.walk_from(self.root, path)

    @staticmethod
    def walk_from(root, path):
        directory, name, found = None, "", root
        for part in path.split("/")[1:] if path != "/" else []:
            if found is None:
                raise Refused("ENOENT")
            if found.names is None:
                raise Refused("ENOTDIR")
            directory, name, found = found, part, found.names.get(part)
        return directory, name, found

    def present(self, path):
        found = self.walk(path)[2]
        if found is None:
            raise Refused("ENOENT")
        return found

    def paths(self, front="", node=None):
        """Each path, with what it stands for."""
        node = node or self.root
        for name in sorted(node.names):
            path, child = f"{front}/{name}", node.names[name]
            yield path, child
            if child.names is not None:
                yield from self.paths(path, child)

    # ---- sessions

    def session(self, number):
        if number not in self.sessions:
            raise Refused("EBADF")
        return self.sessions[number]

    def call_login(self, number, *_):
        if number in self.sessions:
            raise Refused("EBUSY")
        self.sessions[number] = {"umask": 0o022, "open": {}}
        return "ok"

    def call_logout(self, number):
        self.session(number)
        del self.sessions[number]
        return "ok"

    def call_sync(self, number):
        self.session(number)
        return "ok"

    # ---- snapshots

    def opens_in(self, snapshot):
        """Whether a session has a file of a snapshot open, or of the live tree, which is None."""
        return any(opened.snapshot == snapshot for it in self.sessions.values() for opened in it["open"].values())

    def call_snap_create(self, number, name):
        self.session(number)
        if name in self.snapshots:
            raise Refused("EEXIST")
        if len(self.snapshots) == MOST_SNAPSHOTS:
            raise Refused("ELIMIT")
        self.snapshots[name] = copy.deepcopy(self.root)
        return "ok"

    def call_snap_delete(self, number, name):
        self.session(number)
        if name not in self.snapshots:
            raise Refused("ENOENT")
        if self.opens_in(name):
            raise Refused("EBUSY")
        del self.snapshots[name]
        return "ok"

    def call_snap_restore(self, number, name):
        self.session(number)
        if name not in self.snapshots:
            raise Refused("ENOENT")
        if self.opens_in(None):
            raise Refused("EBUSY")
        self.root = copy.deepcopy(self.snapshots[name])
        return "ok"

    def call_snap_list(self, number):
        self.session(number)
        return " ".join(["ok", *sorted(self.snapshots)])

    # ---- names

    def add(self, number, path, mode, is_directory):
        """Makes a node under a name that isn't there."""
        directory, name, _ = self.walk(path)
        umask = self.session(number)["umask"]
        if directory.default is None:
            acl = Acl("u::rwx,g::rwx,o::rwx").with_mode(int(mode, 8) & ~umask)
        else:
            acl = directory.default.with_mode(directory.default.mode() & int(mode, 8))
        inherits = directory.special & SET_GROUP
        node = Node(is_directory, acl, directory.group if inherits else 0, inherits if is_directory else 0)
        node.default = directory.default if is_directory else None
        directory.names[name] = node
        return node

    def call_mkdir(self, number, path, mode):
        self.session(number)
        if self.walk(path)[2] is not None:
            raise Refused("EEXIST")
        self.add(number, path, mode, True)
        return "ok"

    def call_rmdir(self, number, path):
        self.session(number)
        directory, name, found = self.walk(path)
        if found is None:
            raise Refused("ENOENT")
        if found.names is None:
            raise Refused("ENOTDIR")
        if found.names:
            raise Refused("ENOTEMPTY")
        del directory.names[name]
        return "ok"

    def call_unlink(self, number, path):
        self.session(number)
        directory, name, found = self.walk(path)
        if found is None:
            raise Refused("ENOENT")
        if found.names is not None:
            raise Refused("EPERM")
        del directory.names[name]
        found.links -= 1
        return "ok"

    def call_link(self, number, old, new):
        self.session(number)
        found = self.present(old)
        if found.names is not None:
            raise Refused("EPERM")
        directory, name, there = self.walk(new)
        if there is not None:
            raise Refused("EEXIST")
        directory.names[name] = found
        found.links += 1
        return "ok"

    def call_rename(self, number, old, new):
        self.session(number)
        moved = self.present(old)
        directory, name, there = self.walk(new)
        if there is moved:
            return "ok"
        if moved.names is not None and self.is_below(moved, directory):
            raise Refused("EINVAL")
        if there is not None:
            self.replace(moved, there)
        old_directory, old_name, _ = self.walk(old)
        del old_directory.names[old_name]
        directory.names[name] = moved
        return "ok"

    def is_below(self, top, node):
        return node is top or any(child is node for _, child in self.paths("", top))

    @staticmethod
    def replace(moved, there):
        """Lets go of what has the new name."""
        if moved.names is not None and there.names is None:
            raise Refused("ENOTDIR")
        if moved.names is None and there.names is not None:
            raise Refused("EISDIR")
        if there.names:
            raise Refused("ENOTEMPTY")
        there.links -= 1

    def call_readdir(self, number, path):
        self.session(number)
        found = self.present(path)
        if found.names is None:
            raise Refused("ENOTDIR")
        return " ".join(["ok", *sorted(found.names)])

    # ---- attributes

    def call_stat(self, number, path):
        self.session(number)
        return self.present(path).told()

    def call_chmod(self, number, path, mode):
        self.session(number)
        found, bits = self.present(path), int(mode, 8)
        found.acl, found.special = found.acl.with_mode(bits & 0o777), bits & 0o3000
        return "ok"

    def call_chown(self, number, path, owner, group):
        self.session(number)
        found = self.present(path)
        found.owner, found.group = int(owner), int(group)
        return "ok"

    def call_getacl(self, number, path, kind):
        self.session(number)
        found = self.present(path)
        if kind == "a":
            return f"ok {found.acl.text()}"
        if found.names is None:
            raise Refused("EINVAL")
        return f"ok {found.default.text() if found.default else '-'}"

    def call_setacl(self, number, path, kind, text):
        self.session(number)
        found, acl = self.present(path), None if text == "-" else Acl(text)
        if kind == "a":
            found.acl = acl
        elif found.names is None:
            raise Refused("EINVAL")
        else:
            found.default = acl
        return "ok"

    # ---- files

    def descriptor(self, number, which, letters):
        """A descriptor that is open for one of these letters."""
        found = self.session(number)["open"].get(int(which))
        if found is None or not {*letters} & {*found.flags}:
            raise Refused("EBADF")
        return found

    def call_open(self, number, path, flags, mode="0"):
        descriptors = self.session(number)["open"]
        if len(descriptors) == DESCRIPTORS:
            raise Refused("EMFILE")
        found = self.walk(path)[2]
        if found is None and "c" not in flags:
            raise Refused("ENOENT")
        if found is not None and "x" in flags:
            raise Refused("EEXIST")
        if found is not None and found.names is not None:
            raise Refused("EISDIR")
        if found is None:
            found = self.add(number, path, mode, False)
        elif "t" in flags:
            found.data = bytearray()
        least = min({*range(DESCRIPTORS)} - {*descriptors})
        descriptors[least] = Open(found, flags, self.snapshot_of(path))
        return f"ok {least}"

    def call_close(self, number, which):
        self.descriptor(number, which, "rw")
        del self.session(number)["open"][int(which)]
        return "ok"

    def call_read(self, number, which, count):
        found = self.descriptor(number, which, "r")
        data = found.node.data[found.offset : found.offset + int(count)]
        found.offset += len(data)
        return f"ok {data.hex() or '-'}"

    def call_write(self, number, which, data):
        found, data = self.descriptor(number, which, "w"), bytes.fromhex(data)
        at = len(found.node.data) if "a" in found.flags else found.offset
        if at + len(data) > LARGEST_FILE:
            raise Refused("EFBIG")
        found.node.data.extend(bytes(max(0, at - len(found.node.data))))
        found.node.data[at : at + len(data)] = data
        found.offset = at + len(data)
        return f"ok {len(data)}"

    def call_seek(self, number, which, offset):
        found = self.descriptor(number, which, "rw")
        if int(offset) > LARGEST_FILE:
            raise Refused("EINVAL")
        found.offset = int(offset)
        return f"ok {offset}"

    def call_ftruncate(self, number, which, size):
        found = self.descriptor(number, which, "w")
        if int(size) > LARGEST_FILE:
            raise Refused("EFBIG")
        del found.node.data[int(size) :]
        found.node.data.extend(bytes(int(size) - len(found.node.data)))
        return "ok"
