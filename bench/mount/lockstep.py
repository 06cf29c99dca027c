#!/usr/bin/env python3
"""Makes drawn calls on a mount and on the host's file system side by side, and compares each answer, and the trees now and then.

    lockstep.py DIR HOST [CALLS [SEED]]     10,000 calls by default

Calls are by paths of few names, so that many are refused and names come again, and by files and directories that are kept open while they are
renamed, replaced and removed. What is known to differ isn't drawn: attributes that are set of a file without a name, those that are told of a removed
directory, and S_ISGID. The first difference ends it, with status 1 and the last calls.
"""

import collections
import errno
import os
import random
import stat
import sys

sys.dont_write_bytecode = True

from changes import found, told  # noqa: E402

NAMES = ["a", "b", "c", "d", "e f", "ü"]
KEPT = 24


class Side:
    """One of the two trees, with what is open in it."""

    def __init__(self, top):
        self.top, self.files, self.folders = top, {}, {}

    def at(self, path):
        return self.top + path

    def do(self, call, *words):
        """The answer of a call, or its errno."""
        try:
            return getattr(self, call)(*words)
        except OSError as error:
            return errno.errorcode[error.errno]

    def mkdir(self, path):
        os.mkdir(self.at(path), 0o755)

    def rmdir(self, path):
        os.rmdir(self.at(path))

    def unlink(self, path):
        os.unlink(self.at(path))

    def link(self, old, new):
        os.link(self.at(old), self.at(new))

    def rename(self, old, new):
        os.rename(self.at(old), self.at(new))

    def chmod(self, path, mode):
        os.chmod(self.at(path), mode)

    def chown(self, path, owner):
        os.chown(self.at(path), owner, -1)

    def truncate(self, path, size):
        os.truncate(self.at(path), size)

    def list(self, path):
        return sorted(os.listdir(self.at(path)))

    def look(self, path):
        return told_of(os.stat(self.at(path)))

    def read(self, path):
        with open(self.at(path), "rb") as file:
            return file.read()

    def open(self, key, path, flags):
        self.files[key] = os.open(self.at(path), flags, 0o644)

    def close(self, key):
        os.close(self.files.pop(key))

    def pwrite(self, key, data, offset):
        return os.pwrite(self.files[key], data, offset)

    def pread(self, key, count, offset):
        return os.pread(self.files[key], count, offset)

    def ftruncate(self, key, size):
        os.ftruncate(self.files[key], size)

    def fstat(self, key):
        return told_of(os.fstat(self.files[key]))

    def fchmod(self, key, mode):
        os.fchmod(self.files[key], mode)

    def open_folder(self, key, path):
        self.folders[key] = os.open(self.at(path), os.O_RDONLY | os.O_DIRECTORY)

    def close_folder(self, key):
        os.close(self.folders.pop(key))

    def look_in(self, key, name):
        return told_of(os.stat(name, dir_fd=self.folders[key]))

    def mkdir_in(self, key, name):
        os.mkdir(name, 0o755, dir_fd=self.folders[key])

    def unlink_in(self, key, name):
        os.unlink(name, dir_fd=self.folders[key])

    def rename_in(self, key, old, other, new):
        os.rename(old, new, src_dir_fd=self.folders[key], dst_dir_fd=self.folders[other])

    def make_in(self, key, name):
        os.close(os.open(name, os.O_CREAT | os.O_EXCL | os.O_WRONLY, 0o600, dir_fd=self.folders[key]))


def told_of(it):
    is_file = stat.S_ISREG(it.st_mode)
    return stat.filemode(it.st_mode), it.st_uid, it.st_gid, *((it.st_nlink, it.st_size) if is_file else ())


class Drawn:
    """Draws calls by what is open on the host's side."""

    def __init__(self, draw, host):
        self.draw, self.host, self.next = draw, host, 0

    def path(self):
        return "".join("/" + self.draw.choice(NAMES) for _ in range(self.draw.choice((1, 1, 2, 2, 3))))

    def by_path(self):
        calls = ("mkdir", "mkdir", "rmdir", "unlink", "link", "rename", "rename", "rename", "chmod", "chown", "truncate", "list", "look", "read")
        call = self.draw.choice(calls)
        words = [self.path()]
        if call in ("link", "rename"):
            words.append(self.path())
        elif call == "chmod":
            words.append(self.draw.choice((0o700, 0o644, 0o755, 0o1777, 0)))
        elif call == "chown":
            words.append(self.draw.randrange(3))
        elif call == "truncate":
            words.append(self.draw.randrange(20_000))
        return call, *words

    def opening(self):
        self.next += 1
        if self.draw.random() < 0.3:
            return "open_folder", self.next, self.path()
        flags = self.draw.choice((os.O_RDWR, os.O_RDONLY, os.O_RDWR | os.O_CREAT, os.O_RDWR | os.O_CREAT, os.O_RDWR | os.O_CREAT | os.O_EXCL, os.O_WRONLY | os.O_TRUNC))
        return "open", self.next, self.path(), flags

    def by_file(self):
        key = self.draw.choice(list(self.host.files))
        call = self.draw.choice(("close", "pwrite", "pwrite", "pread", "ftruncate", "fstat", "fchmod"))
        if call in ("fchmod", "fstat") and not os.fstat(self.host.files[key]).st_nlink:
            call = "fstat" if stat.S_ISREG(os.fstat(self.host.files[key]).st_mode) else "close"
        words = {
            "pwrite": lambda: (self.draw.randbytes(self.draw.randrange(6000)), self.draw.randrange(20_000)),
            "pread": lambda: (self.draw.randrange(30_000), self.draw.randrange(20_000)),
            "ftruncate": lambda: (self.draw.randrange(20_000),),
            "fchmod": lambda: (self.draw.randrange(0o1000),),
        }.get(call, tuple)()
        return call, key, *words

    def by_folder(self):
        key, name = self.draw.choice(list(self.host.folders)), self.draw.choice(NAMES)
        call = self.draw.choice(("close_folder", "look_in", "mkdir_in", "unlink_in", "make_in", "rename_in"))
        if call == "rename_in":
            return call, key, name, self.draw.choice(list(self.host.folders)), self.draw.choice(NAMES)
        return (call, key) if call == "close_folder" else (call, key, name)

    def call(self):
        chance = self.draw.random()
        if len(self.host.files) + len(self.host.folders) > KEPT:
            return ("close", next(iter(self.host.files))) if self.host.files else ("close_folder", next(iter(self.host.folders)))
        if chance < 0.15:
            return self.opening()
        if chance < 0.4 and self.host.files:
            return self.by_file()
        if chance < 0.55 and self.host.folders:
            return self.by_folder()
        return self.by_path()


def main():
    mount, host = Side(sys.argv[1]), Side(sys.argv[2])
    calls = int(sys.argv[3]) if len(sys.argv) > 3 else 10_000
    drawn = Drawn(random.Random(int(sys.argv[4]) if len(sys.argv) > 4 else 1), host)
    last = collections.deque(maxlen=12)
    refused = 0
    for number in range(calls):
        call = drawn.call()
        wanted, was = host.do(*call), mount.do(*call)
        refused += isinstance(wanted, str)
        brief = (call[0], call[1], len(call[2]), call[3]) if call[0] == "pwrite" else call
        last.append((brief, len(wanted) if isinstance(wanted, bytes) else wanted))
        if wanted != was:
            print(*last, sep="\n")
            print(f"wrong: call {number}: host {str(wanted)[:200]}, mount {str(was)[:200]}")
            return 1
        if number % 200 == 199 and list(told(found(host.top))) != list(told(found(mount.top))):
            print(*last, sep="\n")
            print(f"wrong: the trees differ after call {number}")
            print("\n".join(sorted(set(told(found(host.top))) ^ set(told(found(mount.top))))[:8]))
            return 1
    print(f"lockstep.py: {calls} calls, {refused} of them refused, 0 wrong")
    return 0


if __name__ == "__main__":
    os.umask(0o022)
    sys.exit(main())
