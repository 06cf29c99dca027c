#!/usr/bin/env python3
"""Makes the same calls of the system on a mount and on the host's file system, and compares what they are answered.

    posix.py DIR [HOST [kernel] [WORD..]]    DIR on the mount, HOST a folder of another file system; with words, only the cases with one in their name

Run by hand as root; `posix.sh` mounts an image for it. A case is a list of calls, each made by user 0 or another user in a process of its own, in a
new directory. An answer is a value without numbers of nodes, and without times that a clock showed, or an errno. Where the two differ, the case has
to be in `posix_differs.py`, by its name and with why; each of those has to differ. With `kernel` the mount is one where Linux checks. The last line is
'N cases, D that may differ, M wrong'.
"""

import ctypes
import errno
import itertools
import mmap
import os
import shutil
import socket
import stat
import struct
import sys
import tempfile
import time

sys.dont_write_bytecode = True

import posix_times  # noqa: E402
from posix_differs import may_differ, why_it_may  # noqa: E402
from posix_times import NOW, OMIT, marked, set_times, times_of, with_file  # noqa: E402, F401

LIBC = ctypes.CDLL(None, use_errno=True)
ACCESS, DEFAULT = "system.posix_acl_access", "system.posix_acl_default"
USERS = {"root": (0, 0, []), "anna": (1001, 1001, [50]), "ben": (1002, 1002, [60]), "carl": (1003, 50, [])}
OPENS = {"r": os.O_RDONLY, "w": os.O_WRONLY, "rw": os.O_RDWR}

# ---- Cases


def in_process(who, call, top):
    """What a call answers, made by a user in a process of its own."""
    ends = os.pipe()
    child = os.fork()
    if child == 0:
        try:
            user, group, groups = USERS[who]
            os.setgroups(groups)
            os.setresgid(group, group, group)
            os.setresuid(user, user, user)
            os.umask(0o022)
            os.chdir(top)
            answer = repr(call())
        except OSError as error:
            answer = errno.errorcode.get(error.errno, str(error.errno))
        except BaseException as error:
            answer = f"{type(error).__name__}: {error}"
        os.write(ends[1], answer.encode()[:60000])
        os._exit(0)
    os.close(ends[1])
    with os.fdopen(ends[0], "rb") as told:
        answer = told.read().decode()
    os.waitpid(child, 0)
    return answer


CASES = {}


def case(name, *steps):
    """Adds a case: its steps are pairs of a user and a call, which is a function, or a text that is evaluated in the names of this file."""
    assert name not in CASES, name
    CASES[name] = steps


def answers(steps, folder):
    os.chmod(folder, 0o777)
    return [in_process(who, call if callable(call) else compile_call(call), folder) for who, call in steps]


def compile_call(text):
    code = compile(text, text, "eval")
    return lambda: eval(code, globals())


# ---- What cases call


def put(path, data=b"text", mode=0o644):
    with os.fdopen(os.open(path, os.O_CREAT | os.O_WRONLY | os.O_TRUNC, 0o600), "wb") as file:
        file.write(data)
    os.chmod(path, mode)


def folder(path, mode=0o755, user=0, group=0):
    os.mkdir(path)
    os.chown(path, user, group)
    os.chmod(path, mode)


def owned(path, mode=0o644, user=0, group=0, data=b"text"):
    put(path, data)
    os.chown(path, user, group)
    os.chmod(path, mode)


def get(path):
    with open(path, "rb") as file:
        return file.read()


def about(path, follow=True):
    it = os.stat(path, follow_symlinks=follow)
    links = it.st_nlink if stat.S_ISREG(it.st_mode) else "-"
    size = it.st_size if stat.S_ISREG(it.st_mode) else "-"
    return f"{stat.filemode(it.st_mode)} {links} {it.st_uid} {it.st_gid} {size}"


def opened(path, flags, mode=0o666):
    """Opens and closes a file; what it is then."""
    os.close(os.open(path, flags, mode))
    return about(path)


def names(path="."):
    return sorted(os.listdir(path))


def tree(path="."):
    return sorted(os.path.relpath(os.path.join(top, name), path) for top, below, files in os.walk(path) for name in below + files)


def acl(*entries):
    """A value of an ACL: entries as `u::7`, `u:1001:6`, `g::5`, `g:50:4`, `m::7`, `o::0`."""
    tags = {"u": (1, 2), "g": (4, 8), "m": (16, 16), "o": (32, 32)}
    value = struct.pack("<I", 2)
    for entry in entries:
        kind, who, rights = entry.split(":")
        value += struct.pack("<HHI", tags[kind][1 if who else 0], int(rights), int(who) if who else 0xFFFFFFFF)
    return value


def set_acl(path, *entries, name=ACCESS):
    os.setxattr(path, name, acl(*entries))
    return about(path)


def get_acl(path, name=ACCESS):
    value = os.getxattr(path, name)
    return [struct.unpack_from("<HHI", value, at) for at in range(4, len(value), 8)]


def renamed(old, new, flags):
    """renameat2, which Python doesn't have."""
    if LIBC.renameat2(-100, old.encode(), -100, new.encode(), flags):
        raise OSError(ctypes.get_errno(), "renameat2")


def with_open(path, flags, *calls):
    """Opens a file, and tells what calls on it answer, each or its errno."""
    file = os.open(path, flags, 0o644)
    told = []
    for call in calls:
        try:
            told.append(call(file))
        except OSError as error:
            told.append(errno.errorcode[error.errno])
    os.close(file)
    return told


def at_each(*calls):
    told = []
    for call in calls:
        try:
            told.append(call())
        except OSError as error:
            told.append(errno.errorcode[error.errno])
    return told


# ---- Opening and making

KINDS = {
    "nothing": "None",
    "a file": "owned('x', 0o644)",
    "a file of anna's": "owned('x', 0o600, 1001, 1001)",
    "a directory": "folder('x')",
    "a closed directory": "folder('x', 0o700)",
}
for (kind, make), (mode, access), extra, who in itertools.product(
    KINDS.items(),
    OPENS.items(),
    (0, os.O_CREAT, os.O_CREAT | os.O_EXCL, os.O_TRUNC, os.O_DIRECTORY),
    ("root", "anna", "ben"),
):
    if not (who == "ben" and mode == "rw") and not (extra == os.O_TRUNC and mode == "r"):
        case(f"open {kind} {mode} {extra:o} {who}", ("root", make), (who, f"opened('x', {access | extra})"), ("root", "names()"))

for mode, mask in itertools.product((0o777, 0o640, 0o000), (0o000, 0o022, 0o077)):
    case(f"modes {mode:o} {mask:o}", ("anna", f"(os.umask({mask}), opened('f', os.O_CREAT | os.O_WRONLY, {mode}))[1]"))
    case(f"modes of a directory {mode:o} {mask:o}", ("anna", f"(os.umask({mask}), os.mkdir('d', {mode}), about('d'))[2]"))

for kind, make in KINDS.items():
    for who in ("root", "anna", "ben"):
        case(f"mkdir over {kind} {who}", ("root", make), (who, "os.mkdir('x')"), ("root", "about('x')"))
        case(f"mkdir in {kind} {who}", ("root", make), (who, "os.mkdir('x/y')"), ("root", "tree()"))
        case(f"rmdir {kind} {who}", ("root", make), (who, "os.rmdir('x')"), ("root", "names()"))
        case(f"unlink {kind} {who}", ("root", make), (who, "os.unlink('x')"), ("root", "names()"))
        case(f"list {kind} {who}", ("root", make), (who, "names('x')"))
        case(f"stat {kind} {who}", ("root", make), (who, "about('x')"))
        case(f"truncate {kind} {who}", ("root", make), (who, "(os.truncate('x', 2), about('x'))[1]"))
        case(f"chmod {kind} {who}", ("root", make), (who, "(os.chmod('x', 0o711), about('x'))[1]"))
        case(f"link {kind} {who}", ("root", make), (who, "(os.link('x', 'y'), about('y'))[1]"), ("root", "names()"))
        case(f"access {kind} {who}", ("root", make), (who, "[os.access('x', want) for want in range(8)]"))

# ---- Names

for old, new in itertools.product(KINDS, KINDS):
    make_new = KINDS[new].replace("'x'", "'y'")
    case(
        f"rename {old} to {new}",
        ("root", KINDS[old]),
        ("root", make_new),
        ("root", "os.rename('x', 'y')"),
        ("root", "[(name, about(name)) for name in names()]"),
    )
case(
    "rename to a full directory",
    ("root", "(folder('x'), folder('y'), put('y/f'))"),
    ("root", "os.rename('x', 'y')"),
    ("root", "tree()"),
)
case(
    "rename of a full directory",
    ("root", "(folder('x'), put('x/f'), folder('y'))"),
    ("root", "os.rename('x', 'y')"),
    ("root", "tree()"),
)
case("rename below itself", ("root", "folder('x')"), ("root", "os.rename('x', 'x/y')"))
case("rename over a directory above", ("root", "(folder('x'), folder('x/y'))"), ("root", "os.rename('x/y', 'x')"))
case("rename to itself", ("root", "put('x')"), ("root", "os.rename('x', 'x')"), ("root", "about('x')"))
case(
    "rename to another name of it",
    ("root", "(put('x'), os.link('x', 'y'))"),
    ("root", "os.rename('x', 'y')"),
    ("root", "names()"),
)
for flags in (1, 2, 4, 8):
    case(
        f"rename with flags {flags}",
        ("root", "(put('x'), put('y', b'other'))"),
        ("root", f"renamed('x', 'y', {flags})"),
        ("root", "get('x')"),
    )
    case(
        f"rename with flags {flags} to nothing",
        ("root", "put('x')"),
        ("root", f"renamed('x', 'y', {flags})"),
        ("root", "names()"),
    )
case(
    "rename into a closed directory",
    ("root", "(owned('x', 0o666, 1001), folder('d', 0o755))"),
    ("anna", "os.rename('x', 'd/x')"),
    ("root", "tree()"),
)
case(
    "rename out of one",
    ("root", "(folder('d', 0o755), owned('d/x', 0o666, 1001))"),
    ("anna", "os.rename('d/x', 'x')"),
    ("root", "tree()"),
)
case("rename of a closed directory", ("root", "folder('x', 0o755)"), ("anna", "os.rename('x', 'y')"), ("root", "names()"))
case(
    "rename of a closed directory to another",
    ("root", "(folder('x', 0o755), folder('d', 0o777))"),
    ("anna", "os.rename('x', 'd/y')"),
    ("root", "tree()"),
)
for kind, who in itertools.product(("owner of the directory", "owner of the file", "neither", "root"), ("unlink", "rename", "replace")):
    user = {"owner of the directory": "anna", "owner of the file": "ben", "neither": "carl", "root": "root"}[kind]
    call = {"unlink": "os.unlink('d/x')", "rename": "os.rename('d/x', 'd/y')", "replace": "(put('z'), os.rename('z', 'd/x'))"}[who]
    case(
        f"sticky {who} by {kind}",
        ("root", "(folder('d', 0o1777, 1001), owned('d/x', 0o666, 1002))"),
        (user, call),
        ("root", "tree()"),
    )
for name, text in {
    "space": "a b",
    "tab": "a\tb",
    "line feed": "a\nb",
    "percent": "100%",
    "escape": "%20",
    "escaped escape": "%2520",
    "control": "\x01\x7f",
    "UTF-8": "ümläut-文件",
    "not UTF-8": "\udcff\udcfe",
    "255": "n" * 255,
    "256": "n" * 256,
    "dots": "...",
    "dash": "-x",
    "backslash": "a\\b",
    "snapshot": ".snapshot",
    "trailing slash": "x/",
    "85 of one escape": " " * 85,
    "86 of one escape": " " * 86,
    "43 of two bytes": "ü" * 43,
}.items():
    case(
        f"name {name}: file",
        ("anna", f"(put({text!r}), names(), get({text!r}))"),
        ("anna", f"os.unlink({text!r})"),
        ("anna", "names()"),
    )
    case(f"name {name}: directory", ("anna", f"(os.mkdir({text!r}), names())[1]"), ("anna", f"os.rmdir({text!r})"))
for text in ("", ".", "..", "./x", "x/.", "x/..", "/"):
    for call in ("os.mkdir", "os.rmdir", "os.unlink", "os.stat"):
        if call != "os.stat":
            case(f"{call} {text!r}", ("anna", "os.mkdir('x')"), ("anna", f"{call}({text!r})"))
case("path of many parts", ("root", "os.makedirs('/'.join(['d' * 50] * 18))"), ("root", "len(tree())"))
case("path of too many parts", ("root", "os.makedirs('/'.join(['d' * 50] * 25))"), ("root", "len(tree()) > 18"))
case("path by steps", ("root", "[(os.mkdir('d' * 100), os.chdir('d' * 100)) and None for step in range(12)]"))

# ---- Owners and modes

for who, (user, group) in itertools.product(("root", "anna", "ben", "carl"), ((-1, -1), (1001, -1), (1002, -1), (-1, 1001), (-1, 50), (-1, 60), (1001, 50))):
    case(
        f"chown {user} {group} {who}",
        ("root", "owned('x', 0o2775, 1001, 1001)"),
        (who, f"os.chown('x', {user}, {group})"),
        ("root", "about('x')"),
    )
for who, mode in itertools.product(("root", "anna", "ben"), (0o0, 0o777, 0o1777, 0o2775, 0o4755, 0o2600)):
    case(
        f"chmod {mode:o} of a file {who}",
        ("root", "owned('x', 0o644, 1001, 50)"),
        (who, f"os.chmod('x', {mode})"),
        ("root", "about('x')"),
    )
    case(
        f"chmod {mode:o} of a directory {who}",
        ("root", "folder('x', 0o755, 1001, 60)"),
        (who, f"os.chmod('x', {mode})"),
        ("root", "about('x')"),
    )
for mode in (0o1777, 0o2775, 0o4755):
    case(f"open with mode {mode:o}", ("anna", f"opened('x', os.O_CREAT | os.O_WRONLY, {mode})"))
    case(f"mkdir with mode {mode:o}", ("anna", f"(os.mkdir('x', {mode}), about('x'))[1]"))
case(
    "a group that is handed on",
    ("root", "folder('d', 0o2777, 0, 60)"),
    ("anna", "(put('d/f'), os.mkdir('d/e'), about('d/f'), about('d/e'))[2:]"),
)
for data in ("b''", "b'more'"):
    case(
        f"S bits of a file that is written {data}",
        ("root", "owned('x', 0o2777, 1001, 50)"),
        ("ben", f"os.pwrite(os.open('x', os.O_WRONLY), {data}, 0)"),
        ("root", "about('x')"),
    )
case(
    "S bits of a file that is cut",
    ("root", "owned('x', 0o2777, 1001, 50)"),
    ("ben", "os.truncate('x', 1)"),
    ("root", "about('x')"),
)
for mode, who in itertools.product((0o700, 0o070, 0o007, 0o770, 0o500, 0o300, 0o100), ("anna", "ben", "carl")):
    case(
        f"rights {mode:o} of a file {who}",
        ("root", f"owned('x', {mode}, 1001, 60)"),
        (who, "[os.access('x', want) for want in range(8)]"),
        (who, "get('x')"),
    )
    case(
        f"rights {mode:o} of a directory {who}",
        ("root", f"(folder('d', 0o755, 1001, 60), put('d/x'), os.chmod('d', {mode}))"),
        (who, "at_each(lambda: names('d'), lambda: about('d/x'), lambda: get('d/x'), lambda: put('d/y'), lambda: os.unlink('d/x'))"),
    )
case(
    "a closed directory above",
    ("root", "(folder('d', 0o700), folder('d/e', 0o777), put('d/e/f'))"),
    ("anna", "get('d/e/f')"),
    ("anna", "os.mkdir('d/e/g')"),
)
case("a program that isn't one", ("root", "owned('x', 0o644)"), ("anna", "os.execv('x', ['x'])"))
case(
    "a program",
    ("root", "(put('x', b'#!/bin/sh\\nexit 7\\n', 0o755))"),
    ("anna", "os.waitstatus_to_exitcode(os.system('./x 2>/dev/null'))"),
)
case(
    "a program that may not be read",
    ("root", "(put('x', get('/bin/true')), os.chmod('x', 0o711))"),
    ("anna", "os.waitstatus_to_exitcode(os.system('./x 2>/dev/null'))"),
)

# ---- Access control lists

FULL = ("u::6", "u:1002:6", "g::4", "g:60:2", "m::6", "o::0")
for who in ("root", "anna", "ben"):
    case(f"ACL set by {who}", ("root", "owned('x', 0o644, 1001, 50)"), (who, f"set_acl('x', *{FULL})"), ("root", "get_acl('x')"))
    case(
        f"ACL removed by {who}",
        ("root", f"(owned('x', 0o644, 1001, 50), set_acl('x', *{FULL}))"),
        (who, f"os.removexattr('x', '{ACCESS}')"),
        ("root", "about('x')"),
    )
    case(
        f"ACL read by {who}",
        ("root", f"(owned('x', 0o600, 1001, 50), set_acl('x', *{FULL}))"),
        (who, "get_acl('x')"),
        (who, "sorted(os.listxattr('x'))"),
    )
for name, entries in {
    "minimal": ("u::7", "g::5", "o::1"),
    "unsorted": ("o::1", "g::5", "u::7"),
    "without owner": ("g::5", "o::1"),
    "without others": ("u::7", "g::5"),
    "without mask": ("u::7", "u:5:7", "g::5", "o::1"),
    "owner twice": ("u::7", "u::7", "g::5", "o::1"),
    "user twice": ("u::7", "u:5:7", "u:5:7", "g::5", "m::7", "o::1"),
    "users unsorted": ("u::7", "u:9:7", "u:5:7", "g::5", "m::7", "o::1"),
    "rights over 7": ("u::8", "g::5", "o::1"),
    "mask alone": ("u::7", "g::5", "m::0", "o::1"),
    "32 users": ("u::7", *(f"u:{number}:4" for number in range(32)), "g::5", "m::7", "o::1"),
    "33 users": ("u::7", *(f"u:{number}:4" for number in range(33)), "g::5", "m::7", "o::1"),
}.items():
    case(f"ACL {name}", ("anna", "put('x')"), ("anna", f"set_acl('x', *{entries})"), ("anna", "get_acl('x')"))
    case(
        f"default ACL {name}",
        ("anna", "os.mkdir('x')"),
        ("anna", f"set_acl('x', *{entries}, name=DEFAULT)"),
        ("anna", "get_acl('x', DEFAULT)"),
    )
case(
    "default ACL of a file",
    ("anna", "put('x')"),
    ("anna", f"set_acl('x', *{FULL}, name=DEFAULT)"),
    ("anna", "get_acl('x', DEFAULT)"),
)
case(
    "no ACL",
    ("anna", "put('x')"),
    ("anna", "get_acl('x')"),
    ("anna", f"os.removexattr('x', '{ACCESS}')"),
    ("anna", f"os.removexattr('x', '{DEFAULT}')"),
)
case(
    "ACL of no bytes",
    ("anna", f"(put('x'), set_acl('x', *{FULL}))"),
    ("anna", f"os.setxattr('x', '{ACCESS}', b'')"),
    ("anna", "about('x')"),
)
case(
    "ACL of another version",
    ("anna", "put('x')"),
    ("anna", f"os.setxattr('x', '{ACCESS}', b'\\3' + acl('u::7', 'g::5', 'o::1')[1:])"),
)
case("ACL without its end", ("anna", "put('x')"), ("anna", f"os.setxattr('x', '{ACCESS}', acl('u::7', 'g::5', 'o::1')[:-1])"))
case(
    "chmod sets the mask",
    ("anna", f"(put('x'), set_acl('x', *{FULL}), os.chmod('x', 0o640), about('x'))[3]"),
    ("anna", "get_acl('x')"),
)
for entries, who in itertools.product(
    (
        ("u::0", "u:1001:6", "g::0", "m::6", "o::6"),
        ("u::6", "u:1002:4", "g::0", "m::6", "o::6"),
        ("u::6", "u:1002:6", "g::6", "m::4", "o::6"),
        ("u::6", "g::4", "g:60:2", "m::6", "o::6"),
        ("u::6", "g::2", "g:50:4", "m::6", "o::0"),
        ("u::6", "u:1002:6", "g::6", "m::0", "o::6"),
        ("u::6", "g::0", "g:60:0", "m::7", "o::7"),
    ),
    ("anna", "ben", "carl"),
):
    case(
        f"access by {','.join(entries)} {who}",
        ("root", f"(owned('x', 0o644, 1001, 50), set_acl('x', *{entries}))"),
        (who, "[os.access('x', want) for want in range(8)]"),
        (who, "at_each(lambda: os.close(os.open('x', os.O_RDONLY)), lambda: os.close(os.open('x', os.O_WRONLY)), lambda: os.close(os.open('x', os.O_RDWR)))"),
    )
for mode, mask in itertools.product((0o666, 0o640, 0o777), (0o022, 0o077)):
    for name, entries in {"with a mask": ("u::7", "u:1002:7", "g::5", "m::7", "o::0"), "without": ("u::7", "g::5", "o::4")}.items():
        case(
            f"inherited {name} {mode:o} {mask:o}",
            ("root", f"(folder('d', 0o777), set_acl('d', *{entries}, name=DEFAULT))"),
            ("anna", f"(os.umask({mask}), opened('d/f', os.O_CREAT | os.O_WRONLY, {mode}))[1]"),
            ("anna", f"(os.umask({mask}), os.mkdir('d/e', {mode}), about('d/e'))[2]"),
            ("root", "at_each(lambda: get_acl('d/f'), lambda: get_acl('d/e'), lambda: get_acl('d/e', DEFAULT))"),
        )
for name in ("user.x", "trusted.x", "security.x", "nothing"):
    case(f"attribute {name}", ("root", "put('x')"), ("root", f"os.getxattr('x', '{name}')"))
case("attribute that is set", ("root", "put('x')"), ("root", "os.setxattr('x', 'user.x', b'v')"), ("root", "os.listxattr('x')"))

# ---- Bytes

for size, offset in itertools.product((0, 1, 4095, 4096, 4097, 28672, 28673, 100000), (0, 1, 4096, 70000)):
    case(
        f"write {size} at {offset}",
        ("anna", "put('x', bytes(range(256)) * 200)"),
        ("anna", f"with_open('x', os.O_RDWR, lambda file: os.pwrite(file, b'w' * {size}, {offset}), lambda file: hash_of(os.pread(file, 300000, 0)))"),
        ("anna", "about('x')"),
    )
for size in (0, 1, 63, 64, 65, 4096, 5000, 65536, 65537, 10_000_000):
    case(
        f"truncate to {size}",
        ("anna", "put('x', bytes(range(256)) * 20)"),
        ("anna", f"(os.truncate('x', {size}), hash_of(get('x')))[1]"),
        ("anna", f"(os.truncate('x', 6000), hash_of(get('x')))[1]"),
    )
    case(
        f"ftruncate to {size}",
        ("anna", "put('x', b'abc')"),
        ("anna", f"with_open('x', os.O_RDWR, lambda file: os.ftruncate(file, {size}), lambda file: hash_of(os.pread(file, 20000, 0)))"),
    )
case(
    "ftruncate of what is read",
    ("anna", "put('x')"),
    ("anna", "with_open('x', os.O_RDONLY, lambda file: os.ftruncate(file, 0), lambda file: os.write(file, b'x'))"),
)
case("read of what is written", ("anna", "put('x')"), ("anna", "with_open('x', os.O_WRONLY, lambda file: os.read(file, 1))"))
case(
    "the largest file",
    ("anna", "put('x')"),
    ("anna", "os.truncate('x', 68719476736)"),
    ("anna", "about('x')"),
    ("anna", "with_open('x', os.O_RDWR, lambda file: os.pwrite(file, b'e', 68719476735), lambda file: os.pread(file, 5, 68719476733))"),
)
case(
    "a file that is too large",
    ("anna", "put('x')"),
    ("anna", "os.truncate('x', 68719476737)"),
    ("anna", "with_open('x', os.O_RDWR, lambda file: os.pwrite(file, b'e', 68719476736))"),
)
case(
    "append by two",
    ("anna", "put('x', b'')"),
    ("anna", "[os.write(file, b'%d' % step) for step in range(5) for file in (os.open('x', os.O_WRONLY | os.O_APPEND), os.open('x', os.O_WRONLY | os.O_APPEND))]"),
    ("anna", "get('x')"),
)
case(
    "append after a cut",
    ("anna", "put('x', b'abcdef')"),
    ("anna", "with_open('x', os.O_WRONLY | os.O_APPEND, lambda file: os.truncate('x', 2), lambda file: os.write(file, b'z'))"),
    ("anna", "get('x')"),
)
case(
    "seek",
    ("anna", "put('x', b'abcdef')"),
    ("anna", "with_open('x', os.O_RDONLY, *[lambda file, at=at: os.lseek(file, *at) for at in ((2, 0), (2, 1), (-1, 2), (-9, 0), (100, 0), (1, 3), (1, 4))])"),
)
case(
    "unlinked while it is open",
    ("anna", "put('x', b'abc')"),
    ("anna", "with_open('x', os.O_RDWR, lambda file: os.unlink('x'), lambda file: os.pwrite(file, b'z', 5), lambda file: os.pread(file, 9, 0), lambda file: os.ftruncate(file, 2), lambda file: os.fstat(file).st_nlink, lambda file: os.fstat(file).st_size)"),
    ("anna", "names()"),
)
case(
    "unlinked: chmod",
    ("anna", "put('x')"),
    ("anna", "with_open('x', os.O_RDWR, lambda file: os.unlink('x'), lambda file: os.fchmod(file, 0o600))"),
)
case(
    "unlinked: chown",
    ("anna", "put('x')"),
    ("anna", "with_open('x', os.O_RDWR, lambda file: os.unlink('x'), lambda file: os.fchown(file, 1001, 50))"),
)
case(
    "unlinked: ACL",
    ("anna", "put('x')"),
    ("anna", f"with_open('x', os.O_RDWR, lambda file: os.unlink('x'), lambda file: os.setxattr(file, '{ACCESS}', acl(*{FULL})))"),
)
case(
    "unlinked: opened again",
    ("anna", "put('x')"),
    ("anna", "with_open('x', os.O_RDWR, lambda file: os.unlink('x'), lambda file: os.close(os.open(f'/proc/self/fd/{file}', os.O_RDONLY)))"),
)
case(
    "one name less",
    ("anna", "(put('x'), os.link('x', 'y'))"),
    ("anna", "with_open('x', os.O_RDWR, lambda file: os.unlink('x'), lambda file: os.fchmod(file, 0o600), lambda file: os.fstat(file).st_nlink)"),
    ("anna", "about('y')"),
)
case(
    "renamed over while it is open",
    ("anna", "(put('x', b'old'), put('y', b'new'))"),
    ("anna", "with_open('x', os.O_RDWR, lambda file: os.rename('y', 'x'), lambda file: os.pread(file, 9, 0), lambda file: os.pwrite(file, b'z', 0))"),
    ("anna", "get('x')"),
)
case(
    "rights are kept by what is open",
    ("anna", "put('x')"),
    ("anna", "with_open('x', os.O_RDWR, lambda file: os.chmod('x', 0), lambda file: os.pread(file, 9, 0), lambda file: os.pwrite(file, b'z', 0))"),
)
case(
    "a directory above is renamed",
    ("anna", "(os.mkdir('d'), put('d/x', b'abc'))"),
    ("anna", "with_open('d/x', os.O_RDWR, lambda file: os.rename('d', 'e'), lambda file: os.pread(file, 9, 0), lambda file: os.fchmod(file, 0o600))"),
    ("anna", "about('e/x')"),
)
case(
    "a mapping",
    ("anna", "put('x', bytes(10000))"),
    ("anna", "with_open('x', os.O_RDWR, mapped, lambda file: os.pread(file, 4, 4998))"),
)
case(
    "sync",
    ("anna", "with_open('x', os.O_CREAT | os.O_RDWR, os.fsync, os.fdatasync, lambda file: os.write(file, b'x'), os.fsync)"),
)
case("sync of a directory", ("anna", "with_open('.', os.O_RDONLY, os.fsync)"))
case("fallocate", ("anna", "with_open('x', os.O_CREAT | os.O_RDWR, lambda file: LIBC.fallocate(file, 1, 0, 4096))"))
case(
    "copy of a range",
    ("anna", "(put('x', b'abcdef'), put('y', b''))"),
    ("anna", "with_open('x', os.O_RDONLY, lambda file: os.copy_file_range(file, os.open('y', os.O_WRONLY), 4, 1))"),
    ("anna", "get('y')"),
)
case(
    "locks",
    ("anna", "with_open('x', os.O_CREAT | os.O_RDWR, lambda file: os.lockf(file, os.F_LOCK, 10), lambda file: os.lockf(file, os.F_ULOCK, 10))"),
)
case("without a name", ("anna", "with_open('.', os.O_TMPFILE | os.O_RDWR, lambda file: os.write(file, b'x'))"))
case("past the caches", ("anna", "with_open('x', os.O_CREAT | os.O_RDWR | os.O_DIRECT, direct)"))

# ---- Directories

case(
    "removed while one is in it",
    ("anna", "os.mkdir('d')"),
    ("anna", "(os.chdir('d'), os.rmdir('../d'), at_each(names, lambda: put('x'), lambda: os.mkdir('y')))[2]"),
)
case(
    "a descriptor of a directory",
    ("anna", "(os.mkdir('d'), put('d/x'))"),
    ("anna", "with_open('d', os.O_RDONLY, lambda file: os.stat('x', dir_fd=file).st_size, lambda file: os.mkdir('e', dir_fd=file), lambda file: sorted(os.listdir(file)))"),
)
case(
    "the same, renamed",
    ("anna", "(os.mkdir('d'), put('d/x'))"),
    ("anna", "with_open('d', os.O_RDONLY, lambda file: os.rename('d', 'e'), lambda file: os.stat('x', dir_fd=file).st_size, lambda file: os.unlink('x', dir_fd=file), lambda file: os.listdir(file))"),
)
case(
    "a directory one is in, closed to them",
    ("root", "(folder('d', 0o777), folder('d/e', 0o777))"),
    ("anna", "(os.chdir('d/e'), put('x'))"),
    ("root", "(os.chmod('d', 0o700), get('d/e/x'))[1]"),
)
case(
    "500 names",
    ("anna", "[put(f'n{number}', b'') for number in range(500)] and None"),
    ("anna", "len(names())"),
    ("anna", "[os.unlink(name) for name in os.listdir('.')] and names()"),
)
case(
    "kinds of a listing",
    ("anna", "(os.mkdir('d'), put('f'))"),
    ("anna", "sorted((entry.name, entry.is_dir(), entry.is_file(), entry.inode() == os.stat(entry.name).st_ino) for entry in os.scandir('.'))"),
)
case(
    "links of a directory's files",
    ("anna", "(put('x'), [os.link('x', f'y{number}') for number in range(40)] and None)"),
    ("anna", "about('x')"),
)

# ---- What isn't there

case("symbolic link", ("anna", "os.symlink('x', 'y')"))
case("pipe", ("anna", "os.mkfifo('x')"))
case("device", ("root", "os.mknod('x', 0o20666, os.makedev(1, 3))"))
case("regular file by mknod", ("anna", "(os.mknod('x', 0o100640), about('x'))[1]"))
case("socket", ("anna", "socket.socket(socket.AF_UNIX).bind('x')"))
case("length of names", ("anna", "os.statvfs('.').f_namemax"))


# ---- Times

for name, steps in posix_times.cases().items():
    case(name, *steps)


def hash_of(data):
    return len(data), hash(data) if len(data) < 10 else sum(byte * (at % 251 + 1) for at, byte in enumerate(data[:200000]))


def mapped(file):
    with mmap.mmap(file, 10000) as seen:
        seen[4998:5001] = b"map"
        seen.flush()
        return seen[4997:5002]


def direct(file):
    with mmap.mmap(-1, 4096) as page:
        page.write(b"d" * 4096)
        return os.write(file, page)


def main():
    mounted = sys.argv[1]
    host = sys.argv[2] if len(sys.argv) > 2 else tempfile.gettempdir()
    is_checked = sys.argv[3:4] == ["kernel"]
    words, differs = sys.argv[4 if is_checked else 3 :], may_differ(is_checked)
    cases = wrong = may = 0
    met = set()
    with tempfile.TemporaryDirectory(dir=mounted) as here, tempfile.TemporaryDirectory(dir=host) as there:
        os.chmod(here, 0o755)
        os.chmod(there, 0o755)
        for number, (name, steps) in enumerate(CASES.items()):
            if words and not any(word in name for word in words):
                continue
            cases += 1
            told = []
            for top in (there, here):
                os.mkdir(f"{top}/{number}")
                told.append(answers(steps, f"{top}/{number}"))
            front = why_it_may(name, differs)
            if told[0] == told[1]:
                continue
            met.add(front)
            may += front is not None
            if front is None:
                wrong += 1
                for (who, call), wanted, found in zip(steps, *told):
                    if wanted != found:
                        print(f"wrong: {name}: {call if isinstance(call, str) else name} by {who}: host {wanted[:400]}, mount {found[:400]}")
    for front in differs:
        if not words and front not in met:
            wrong += 1
            print(f"wrong: {front} doesn't differ")
    print(f"posix.py: {cases} cases, {may} that may differ, {wrong} wrong")
    return wrong > 0


if __name__ == "__main__":
    sys.exit(main())
