"""The cases of posix.py on times: which a call marks, which are set, and by whom.

What a call marks is told by letters, a for access, m for modification and c for change, of what is at paths before it. So no case tells what a clock
showed, and between what is made and the call that is looked at a clock goes on.
"""

import ctypes
import errno
import itertools
import os
import struct
import time

LIBC = ctypes.CDLL(None, use_errno=True)
NOW, OMIT = (0, (1 << 30) - 1), (0, (1 << 30) - 2)
# A clock of times may go on once in ten milliseconds.
PAUSE = 0.02


def times_of(file):
    """Access, modification and change time of a path or a descriptor, in nanoseconds."""
    it = os.stat(file)
    return it.st_atime_ns, it.st_mtime_ns, it.st_ctime_ns


def set_times(path, *times):
    """utimensat with access and modification time, each in seconds and nanoseconds, or without: both are now. What it set then, where it was told."""
    value = struct.pack("<qqqq", *times[0], *times[1]) if times else None
    if LIBC.utimensat(-100, path.encode(), value, 0):
        raise OSError(ctypes.get_errno(), "utimensat")
    return [told for wanted, told in zip(times, times_of(path)) if wanted not in (NOW, OMIT)]


def marked(call, *paths, letters="amc"):
    """What a call answers, and which times of what was at these paths are others then."""
    files = [os.open(path, os.O_RDONLY) for path in paths]
    before = [times_of(file) for file in files]
    time.sleep(PAUSE)
    try:
        told = call()
    except OSError as error:
        told = errno.errorcode[error.errno]
    after = [times_of(file) for file in files]
    return told, ["".join(letter for letter, was, now in zip("amc", *pair) if was != now and letter in letters) for pair in zip(before, after)]


def with_file(path, flags, call):
    file = os.open(path, flags, 0o644)
    try:
        return call(file)
    finally:
        os.close(file)


MADE = "(put('x'), os.link('x', 'l'), put('y'), os.mkdir('d'), os.mkdir('d/e'), put('d/z'))"
# The call, and the paths that are looked at.
MARKS = {
    "a write": ("with_file('x', os.O_WRONLY, lambda file: os.write(file, b'w'))", "x", "l", "."),
    "a write of nothing": ("with_file('x', os.O_WRONLY, lambda file: os.write(file, b''))", "x"),
    "a write past the end": ("with_file('x', os.O_WRONLY, lambda file: os.pwrite(file, b'w', 9000))", "x"),
    "an append": ("with_file('x', os.O_WRONLY | os.O_APPEND, lambda file: os.write(file, b'w'))", "x"),
    "a refused write": ("with_file('x', os.O_RDONLY, lambda file: os.write(file, b'w'))", "x"),
    "a sync": ("with_file('x', os.O_RDWR, os.fsync)", "x"),
    "an open to write": ("with_file('x', os.O_RDWR, lambda file: None)", "x", "."),
    "an open with O_CREAT of what is there": ("with_file('x', os.O_RDWR | os.O_CREAT, lambda file: None)", "x", "."),
    "an open with O_CREAT": ("with_file('n', os.O_RDWR | os.O_CREAT, lambda file: None)", "."),
    "an open with O_CREAT and O_EXCL of what is there": ("with_file('x', os.O_RDWR | os.O_CREAT | os.O_EXCL, lambda file: None)", "x", "."),
    "an open with O_TRUNC": ("with_file('x', os.O_RDWR | os.O_TRUNC, lambda file: None)", "x", "."),
    "an open with O_CREAT and O_TRUNC of what is there": ("with_file('x', os.O_RDWR | os.O_CREAT | os.O_TRUNC, lambda file: None)", "x", "."),
    "truncate to less": ("os.truncate('x', 1)", "x", "."),
    "truncate to more": ("os.truncate('x', 5000)", "x"),
    "truncate to the same": ("os.truncate('x', 4)", "x"),
    "ftruncate to less": ("with_file('x', os.O_RDWR, lambda file: os.ftruncate(file, 1))", "x"),
    "ftruncate to the same": ("with_file('x', os.O_RDWR, lambda file: os.ftruncate(file, 4))", "x"),
    "mkdir": ("os.mkdir('n')", "."),
    "a refused mkdir": ("os.mkdir('d')", "d", "."),
    "mkdir below": ("os.mkdir('d/n')", "d", "."),
    "mknod": ("os.mknod('n', 0o100644)", "."),
    "link": ("os.link('x', 'n')", "x", "."),
    "link to another directory": ("os.link('x', 'd/n')", "x", "d", "."),
    "unlink of one name of two": ("os.unlink('l')", "x", "."),
    "unlink of the last name": ("os.unlink('y')", "y", "."),
    "rmdir": ("os.rmdir('d/e')", "d", "."),
    "a refused rmdir": ("os.rmdir('d')", "d", "."),
    "rename": ("os.rename('x', 'n')", "x", "."),
    "rename to another directory": ("os.rename('x', 'd/n')", "x", "d", "."),
    "rename over another": ("os.rename('x', 'y')", "x", "y", "."),
    "rename over a file of another directory": ("os.rename('d/z', 'y')", "d/z", "y", "d", "."),
    "rename to itself": ("os.rename('x', 'x')", "x", "."),
    "rename to another name of it": ("os.rename('x', 'l')", "x", "."),
    "rename of a directory": ("os.rename('d', 'n')", "d", "."),
    "rename of a directory to another": ("os.rename('d/e', 'n')", "d/e", "d", "."),
    "chmod": ("os.chmod('x', 0o600)", "x", "l", "."),
    "chmod to what it is": ("os.chmod('x', 0o644)", "x"),
    "chmod of a directory": ("os.chmod('d', 0o700)", "d", "."),
    "chown": ("os.chown('x', -1, 50)", "x"),
    "chown to what it is": ("os.chown('x', 1001, 1001)", "x"),
    "a refused chown": ("os.chown('x', 1002, -1)", "x"),
    "an ACL": ("set_acl('x', 'u::6', 'u:1002:6', 'g::4', 'm::6', 'o::0')", "x", "."),
    "a default ACL": ("set_acl('d', 'u::7', 'u:1002:7', 'g::5', 'm::7', 'o::0', name=DEFAULT)", "d"),
    "named times": ("set_times('x', (5, 7), (6, 8))", "x", "l", "."),
    "one named time": ("set_times('x', OMIT, (6, 8))", "x"),
    "the other named time": ("set_times('x', (6, 8), OMIT)", "x"),
    "times of now": ("set_times('x')", "x"),
    "one time of now": ("set_times('x', OMIT, NOW)", "x"),
    "no times": ("set_times('x', OMIT, OMIT)", "x"),
    "a time of now and a named one": ("set_times('x', NOW, (6, 8))", "x"),
    "a time that is none": ("set_times('x', (5, 1000000000), (6, 8))", "x"),
}
USERS_OF = ("anna", "ben", "root")
WHICH = {"named": "(5, 7), (6, 8)", "of now": "", "one of now": "NOW, OMIT", "one of now, one named": "NOW, (6, 8)", "none": "OMIT, OMIT"}


def cases():
    """Each case by its name: its steps, as posix.py has them."""
    found = {}
    for name, (call, *paths) in MARKS.items():
        found[f"times by {name}"] = ("anna", MADE), ("anna", f"marked(lambda: {call}, *{paths})")
    for who, mode, (name, times) in itertools.product(USERS_OF, (0o644, 0o666), WHICH.items()):
        found[f"times set of a file {mode:o}, {name}, {who}"] = ("root", f"owned('x', {mode}, 1001, 50)"), (who, f"set_times('x', {times})")
    for who, mode in itertools.product(USERS_OF, (0o755, 0o777)):
        found[f"times set of a directory {mode:o} {who}"] = ("root", f"folder('x', {mode}, 1001, 50)"), (who, "set_times('x')"), (who, "set_times('x', (5, 7), (6, 8))")
    return found | {
        "times": (("anna", "put('x')"), ("anna", "(os.utime('x', (5, 7)), os.stat('x').st_mtime)[1]")),
        "times of what is made": (
            ("anna", "(put('x', b''), os.mkdir('d'), os.mknod('n', 0o100600))"),
            ("anna", "(os.close(os.open('o', os.O_CREAT | os.O_WRONLY)), [len({*times_of(path)}) for path in ('d', 'n', 'o')])[1]"),
        ),
        "times of a write are now": (("anna", "put('x')"), ("anna", "[abs(time.time() - told / 1e9) < 60 for told in times_of('x')]")),
        "times by two names": (("anna", "(put('x'), os.link('x', 'y'), os.utime('x', ns=(5, 7)))"), ("anna", "(times_of('x') == times_of('y'), times_of('y')[:2])")),
        "times before 1970": (("anna", "put('x')"), ("anna", "set_times('x', (-5, 7), (-315619200, 999999999))")),
        "times after 2106": (("anna", "put('x')"), ("anna", "set_times('x', (2**32 + 5, 7), (2**33, 999999999))")),
        "times of a directory": (("anna", "os.mkdir('x')"), ("anna", "set_times('x', (5, 7), (6, 8))"), ("anna", "(put('x/f'), times_of('x')[0])[1]")),
        "times through a descriptor": (("anna", "put('x')"), ("anna", "with_file('x', os.O_RDONLY, lambda file: (os.utime(file, ns=(5, 7)), times_of(file)[:2])[1])")),
        "times of what has no name": (
            ("anna", "put('x')"),
            ("anna", "with_file('x', os.O_RDWR, lambda file: (os.unlink('x'), os.utime(file, ns=(5, 7)), times_of(file)[:2], os.write(file, b'w'), times_of(file)[0], times_of(file)[1] > 7)[2:])"),
        ),
        "times after a rename": (("anna", "(put('x'), os.utime('x', ns=(5, 7)), os.rename('x', 'y'))"), ("anna", "times_of('y')[:2]")),
        "times of what is copied": (("root", "(owned('x', 0o644, 1001, 50), os.utime('x', ns=(5, 7)), shutil.copy2('x', 'y'))"), ("root", "times_of('y')[1]")),
        "times by an open with O_TRUNC of no bytes": (
            ("anna", "put('x', b'')"),
            ("anna", "marked(lambda: with_file('x', os.O_RDWR | os.O_TRUNC, lambda file: None), 'x')"),
        ),
        "times by a mapping": (("anna", "put('x', bytes(10000))"), ("anna", "marked(lambda: with_file('x', os.O_RDWR, mapped), 'x', letters='mc')")),
        "times by a copy of a range": (
            ("anna", "(put('x', b'abcdef'), put('y', b''))"),
            ("anna", "marked(lambda: with_file('x', os.O_RDONLY, lambda file: with_file('y', os.O_WRONLY, lambda to: os.copy_file_range(file, to, 4))), 'x', 'y', letters='mc')"),
        ),
        "times in a closed directory": (("root", "(folder('d', 0o700), owned('d/x', 0o666))"), ("anna", "set_times('d/x')")),
        "access time of a read": (("anna", "put('x')"), ("anna", "marked(lambda: get('x'), 'x')")),
        "access time of a listing": (("anna", "(os.mkdir('d'), put('d/x'))"), ("anna", "marked(lambda: names('d'), 'd')")),
    }
