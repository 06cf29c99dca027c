"""The calls of any user, on the live tree and on snapshots, by docs/RULES.md: `World` with rights, owners and numbers of nodes.

A point that nobody asked for isn't there, so the numbers that are kept back are right as long as none is made. What calls are charged is counted, and
at least the sectors of the log that their records take: who draws calls ends a serve before a point is due.
"""

import re

from plain_world import DESCRIPTORS, SET_GROUP, Acl, Node, Refused, World, bits_of

STICKY = 0o1000
HIDDEN = ".snapshot"
CHARGES = {"mkdir": 23, "link": 23, "rmdir": 23, "unlink": 33, "ftruncate": 13, "chmod": 10, "chown": 10, "setacl": 10}
MADE, CUT, MOVED, WRITTEN, WRITTEN_BLOCK, PARKED, BLOCK = 23, 13, 56, 10, 3, 10, 4096
# The most bytes of a record but for data: that of an ACL of 36 entries or of two names.
RECORD = 600
# The free blocks of a new image of 4,096.
NEW_FREE = 4019


def parent_of(path):
    return path.rpartition("/")[0] or "/"


def tree_of(path):
    """The tree that an object is in: "live", "hidden" for the directory of snapshots, or the name of a snapshot after a slash."""
    names = path.split("/")[1:]
    if names[0] != HIDDEN:
        return "live"
    return "hidden" if len(names) == 1 else f"/{names[1]}"


def name_tree_of(path):
    """That of a name, which is its directory's."""
    return tree_of(parent_of(path))


class Callers(World):
    """The world as each session's user sees it. `who` is whose call is answered."""

    def __init__(self):
        super().__init__()
        self.root.number = 2
        self.hidden = Node(True, Acl("u::r-x,g::r-x,o::r-x"), 0, 0)
        self.hidden.number = 1
        self.who, self.kept_back, self.roots = None, set(), 0
        self.begin_root()

    def begin_root(self):
        """A root was made: the log is empty, and no number is kept back."""
        self.kept_back.clear()
        self.charged = self.sectors = 0
        self.roots += 1

    def crash(self):
        super().crash()
        self.begin_root()

    def answer(self, line):
        session, call, *_ = line.split(" ")
        self.who = self.sessions.get(int(session), {}).get("who")
        reply = super().answer(line)
        if reply.startswith("ok") and call in CHARGES:
            self.log(CHARGES[call])
        return reply

    def log(self, charge, size=0):
        """A change is charged, and its record takes a gate and the sectors of its body, of which data have so many bytes."""
        self.charged += charge
        self.sectors += 2 + (size + RECORD) // 512

    def left(self):
        """The blocks that are left of a new image, as long as it has its first root."""
        nameless = {node.number for node in self.opened() if node.links == 0}
        return NEW_FREE - self.charged - PARKED * len(nameless | self.kept_back)

    # ---- rights

    def grants(self, node, letters):
        """Whether a node's ACL grants all these rights, by the access check of acl(5)."""
        user, *groups = self.who
        entries = {key: bits_of(granted) for key, granted in node.acl.entries.items()}
        wanted, mask = sum(1 << "xwr".index(letter) for letter in letters), entries.get("m:", 7)
        if user == 0:
            return True
        if user == node.owner:
            return wanted & ~entries["u:"] == 0
        if f"u:{user}" in entries:
            return wanted & ~(entries[f"u:{user}"] & mask) == 0
        keys = ["g:"] * (node.group in groups) + [f"g:{group}" for group in groups]
        found = [entries[key] for key in keys if key in entries]
        if found:
            return any(wanted & ~(granted & mask) == 0 for granted in found)
        return wanted & ~entries["o:"] == 0

    def need(self, node, letters):
        if not self.grants(node, letters):
            raise Refused("EACCES")

    def need_owner(self, node):
        if self.who[0] not in (0, node.owner):
            raise Refused("EPERM")

    def need_sticky(self, directory, node):
        if directory.special & STICKY and self.who[0] not in (0, node.owner, directory.owner):
            raise Refused("EPERM")

    @staticmethod
    def need_live(tree):
        if tree != "live":
            raise Refused("EROFS")

    # ---- paths

    def below(self, directory, name):
        if directory is self.hidden:
            return self.snapshots.get(name)
        if directory is self.root and name == HIDDEN:
            return self.hidden
        return directory.names.get(name)

    def walk(self, path):
        directory, name, found = None, "", self.root
        for part in path.split("/")[1:] if path != "/" else []:
            if found is None:
                raise Refused("ENOENT")
            if found.names is None:
                raise Refused("ENOTDIR")
            self.need(found, "x")
            directory, name, found = found, part, self.below(found, part)
        return directory, name, found

    # ---- numbers

    def opened(self):
        """What is open in the live tree."""
        return [opened.node for it in self.sessions.values() for opened in it["open"].values() if opened.snapshot is None]

    def nodes_in(self, tree):
        """The nodes of a tree, also of files without names. None is that of a snapshot that was deleted."""
        if tree == "hidden":
            return [self.hidden]
        root = self.root if tree == "live" else self.snapshots.get((tree or "/")[1:])
        if root is None:
            return []
        return [root, *(node for _, node in self.paths("", root)), *(self.opened() if tree == "live" else [])]

    def next_number(self):
        used = {node.number for node in self.nodes_in("live")} | self.kept_back
        return min({*range(2, len(used) + 3)} - used)

    def let_go(self, opened):
        """The number of a file that goes with its last descriptor is kept back."""
        node = opened.node
        if opened.snapshot is None and node.links == 0 and not any(node is other for other in self.opened()):
            self.kept_back.add(node.number)

    def find(self, path):
        """The tree and the number of what user 0 finds at a path, or None."""
        self.who = (0,)
        try:
            found = self.walk(path)[2]
        except Refused:
            return None
        return found and (tree_of(path), found.number)

    def look(self, tree, number):
        """What stat tells of the object with a number, or None."""
        found = [node for node in self.nodes_in(tree) if node.number == number]
        return found[0].told() if found else None

    # ---- sessions

    def call_login(self, number, user, group, groups):
        super().call_login(number)
        others = [] if groups == "-" else [int(other) for other in groups.split(",")]
        self.sessions[number]["who"] = (int(user), int(group), *others)
        return "ok"

    def call_logout(self, number):
        descriptors = self.session(number)["open"]
        for which in [*descriptors]:
            self.let_go(descriptors.pop(which))
        return super().call_logout(number)

    def call_umask(self, number, mode):
        session = self.session(number)
        old, session["umask"] = session["umask"], int(mode, 8)
        return f"ok {old:04o}"

    # ---- snapshots

    def point(self, change, number, name):
        if not re.fullmatch("[A-Za-z0-9._-]{1,31}", name) or name in (".", ".."):
            raise Refused("EINVAL")
        if self.who[0] != 0:
            raise Refused("EPERM")
        reply = change(number, name)
        self.begin_root()
        return reply

    def call_snap_create(self, number, name):
        return self.point(super().call_snap_create, number, name)

    def call_snap_delete(self, number, name):
        return self.point(super().call_snap_delete, number, name)

    # ---- names

    def add(self, number, path, mode, is_directory):
        inode, (user, group, *_) = self.next_number(), self.who
        node = super().add(number, path, mode, is_directory)
        node.number, node.owner = inode, user
        if not self.walk(path)[0].special & SET_GROUP:
            node.group = group
        return node

    def call_mkdir(self, number, path, mode):
        directory, _, found = self.walk(path)
        if found is not None:
            raise Refused("EEXIST")
        self.need_live(name_tree_of(path))
        self.need(directory, "w")
        return super().call_mkdir(number, path, mode)

    def call_rmdir(self, number, path):
        directory, _, found = self.walk(path)
        if found is None:
            raise Refused("ENOENT")
        if found.names is None:
            raise Refused("ENOTDIR")
        self.need_live(tree_of(path))
        self.need(directory, "w")
        self.need_sticky(directory, found)
        return super().call_rmdir(number, path)

    def call_unlink(self, number, path):
        directory, _, found = self.walk(path)
        if found is None:
            raise Refused("ENOENT")
        if found.names is not None:
            raise Refused("EPERM")
        self.need_live(tree_of(path))
        self.need(directory, "w")
        self.need_sticky(directory, found)
        return super().call_unlink(number, path)

    @staticmethod
    def need_one_tree(old, new):
        if name_tree_of(old) != name_tree_of(new):
            raise Refused("EXDEV")
        Callers.need_live(name_tree_of(old))

    def call_link(self, number, old, new):
        if self.present(old).names is not None:
            raise Refused("EPERM")
        directory, _, there = self.walk(new)
        self.need_one_tree(old, new)
        if there is not None:
            raise Refused("EEXIST")
        self.need(directory, "w")
        return super().call_link(number, old, new)

    def call_rename(self, number, old, new):
        if {"/", f"/{HIDDEN}"} & {old, new}:
            raise Refused("EBUSY")
        old_directory, _, moved = self.walk(old)
        if moved is None:
            raise Refused("ENOENT")
        directory, _, there = self.walk(new)
        self.need_one_tree(old, new)
        if there is moved:
            return "ok"
        if moved.names is not None and self.is_below(moved, directory):
            raise Refused("EINVAL")
        self.need(old_directory, "w")
        self.need(directory, "w")
        self.need_sticky(old_directory, moved)
        if there is not None:
            self.need_sticky(directory, there)
        reply = super().call_rename(number, old, new)
        self.log(MOVED)
        return reply

    def call_readdir(self, number, path):
        found = self.present(path)
        if found.names is None:
            raise Refused("ENOTDIR")
        self.need(found, "r")
        if found is self.hidden:
            return " ".join(["ok", *sorted(self.snapshots)])
        return super().call_readdir(number, path)

    # ---- attributes

    def changing(self, path):
        """What is changed by its owner."""
        found = self.present(path)
        self.need_live(tree_of(path))
        self.need_owner(found)
        return found

    def call_chmod(self, number, path, mode):
        found, bits = self.changing(path), int(mode, 8)
        if found.names is None and self.who[0] != 0 and found.group not in self.who[1:]:
            bits &= ~SET_GROUP
        return super().call_chmod(number, path, f"{bits:04o}")

    def call_chown(self, number, path, user, group):
        found = self.changing(path)
        user = found.owner if user == "-" else int(user)
        group = found.group if group == "-" else int(group)
        if self.who[0] != 0:
            if user != found.owner or group != found.group and group not in self.who[1:]:
                raise Refused("EPERM")
            if found.names is None:
                found.special &= ~SET_GROUP
        return super().call_chown(number, path, user, group)

    def call_access(self, _, path, wanted):
        found, letters = self.present(path), wanted.replace("-", "")
        if "w" in letters:
            self.need_live(tree_of(path))
        self.need(found, letters)
        return "ok"

    def call_setacl(self, number, path, kind, text):
        if kind == "d" and self.present(path).names is None:
            raise Refused("EINVAL")
        self.changing(path)
        return super().call_setacl(number, path, kind, text)

    # ---- files

    def check_open(self, path, flags):
        directory, _, found = self.walk(path)
        if found is None:
            if "c" not in flags:
                raise Refused("ENOENT")
            self.need_live(name_tree_of(path))
            self.need(directory, "w")
            return
        if "x" in flags:
            raise Refused("EEXIST")
        if found.names is not None:
            raise Refused("EISDIR")
        if "w" in flags:
            self.need_live(tree_of(path))
        self.need(found, [letter for letter in "rw" if letter in flags])

    def call_open(self, number, path, flags, mode="0"):
        if len(self.session(number)["open"]) == DESCRIPTORS:
            raise Refused("EMFILE")
        self.check_open(path, flags)
        was_there = self.walk(path)[2]
        reply = super().call_open(number, path, flags, mode)
        if not was_there or "t" in flags:
            self.log(CUT if was_there else MADE)
        return reply

    def call_close(self, number, which):
        opened = self.session(number)["open"].get(int(which))
        reply = super().call_close(number, which)
        self.let_go(opened)
        return reply

    def call_write(self, number, which, data):
        at, size = self.descriptor(number, which, "w").offset, len(data) // 2
        if data == "-":
            return "ok 0"
        reply = super().call_write(number, which, data)
        self.log(WRITTEN + WRITTEN_BLOCK * ((at + size - 1) // BLOCK - at // BLOCK + 1), size)
        return reply
