#!/usr/bin/env python3
"""Compares the program with the kernel's own file system, call by call.

    bench/linux/kernel.py SCRIPT..                runs these scripts on both
    bench/linux/kernel.py --drawn COUNT [SEED]    runs so many scripts of 120 lines, drawn from seeds that begin with SEED

Run by hand, as root, on a file system with access control lists (ext4, xfs, tmpfs). Builds the program where it isn't
up to date. Each script runs in a folder of its own below the one for temporary files, as the root directory of one
process for each session, which has the session's user and groups. Prints each line whose replies differ, and how many
lines of how many scripts were compared; the status is 1 where a reply differs.

What isn't compared, since it is this project's own rule:
- the place and the entry of a denial, which the kernel doesn't tell, and link count and size of a directory, which
  are 1 and 0 here;
- who loses S_ISGID: the kernel takes it from a directory too where somebody outside of its group sets its mode, and from
  whatever it sets the access ACL of; from a file that is written to or cut, and that user 0 gives away. Here it stays
  there, and a file loses it in every chown by somebody else. So the bit is set as it is here;
- a MASK without any right: the kernel then leaves the named entries out, and whoever they name has the rights of
  others; here, as acl(5) says, they are denied what the MASK lacks;
- a directory whose group entries grant search by one and write by another: to make or remove a name takes two checks
  here, and one of both rights there;
- arguments that the kernel knows no limit of: a mode of chmod is at most 03777 here, one of mkdir and a umask at most
  0777, an ACL has its entries in one order, and a path has at most 1,023 bytes of printable ASCII. They are `EINVAL`
  or `ENAMETOOLONG` before any walk, and so are they here;
- a chown that keeps user and group is for the owner and user 0 here, and for anybody there;
- the order of refusals: of `rmdir`, `unlink`, `link` and `rename` the tests are asked of the kernel one by one, in the
  order that they have here, and it has to refuse the call too where one of them does. To unlink a directory is `EPERM`
  here and `EISDIR` there, to cut a file that isn't open for writing `EBADF` here and `EINVAL` there;
- a directory is never opened here, and is there for reading;
- a file has at most 68,719,476,736 bytes here, a session 64 descriptors, and a read or a write 65,536 bytes;
- user 0 may execute any file here, and there only one that somebody may execute. A default ACL of a file is `EINVAL`;
- to move a directory takes write to itself there, for its `..`, and hard links and files in directories with S_ISVTX
  may be guarded (`fs.protected_hardlinks`, `fs.protected_regular`). Such a move or link is made by user 0 then, and what
  is there is opened without O_CREAT;
- `/.snapshot`, a full disk, and memory: scripts that come to these differ.
"""

import errno
import os
import random
import re
import socket
import stat
import struct
import subprocess
import sys
import tempfile
from pathlib import Path

TOP = Path(__file__).resolve().parents[2]
PROGRAM = TOP / "crates/sn_bin/out/sn_bin"
ACCESS, DEFAULT = "system.posix_acl_access", "system.posix_acl_default"
VERSION, NOBODY = 2, 0xFFFFFFFF
USER_OBJ, USER, GROUP_OBJ, GROUP, MASK, OTHER = 0x01, 0x02, 0x04, 0x08, 0x10, 0x20
LETTERS = {USER_OBJ: "u", USER: "u", GROUP_OBJ: "g", GROUP: "g", MASK: "m", OTHER: "o"}
S_ISGID = 0o2000
LARGEST_FILE, MOST_BYTES, DESCRIPTORS = 68_719_476_736, 65_536, 64
WITHOUT_PATH = ("umask", "close", "read", "write", "seek", "ftruncate")
# The most bytes of a line or a reply: twice the most of a write, and some words.
MESSAGE = 1 << 18


class Refused(Exception):
    """A call that is refused before it comes to the kernel, by its errno."""


class ByRoot(Exception):
    """A call that the kernel guards more than is done here: user 0 makes it."""


def rights(text):
    """The bits of three letters, `rwx` or dashes in their places."""
    if not re.fullmatch("[r-][w-][x-]", text):
        raise Refused("EINVAL")
    return sum(bit for bit, letter in zip((4, 2, 1), text) if letter != "-")


def entry_of(text):
    """The tag, rights and number of an entry's text."""
    found = re.fullmatch(r"([ugmo]):(0|[1-9]\d*)?:(...)", text)
    if not found:
        raise Refused("EINVAL")
    letter, number, granted = found.groups()
    tag = {"u": (USER_OBJ, USER), "g": (GROUP_OBJ, GROUP)}.get(letter, ({"m": MASK, "o": OTHER}.get(letter), None))
    tag = tag[number is not None]
    if tag is None or int(number or 0) >= NOBODY:
        raise Refused("EINVAL")
    return tag, rights(granted), int(number) if number is not None else NOBODY


def acl_of(text):
    """The entries of an ACL's one spelling, each once and in order."""
    entries = [entry_of(part) for part in text.split(",")]
    keys = [(tag, number) for tag, _, number in entries]
    tags = [tag for tag, _ in keys]
    wants_mask = USER in tags or GROUP in tags
    if keys != sorted(set(keys)) or not {USER_OBJ, GROUP_OBJ, OTHER} <= {*tags} or wants_mask and MASK not in tags:
        raise Refused("EINVAL")
    return entries


def text_of(entries):
    """The spelling of an ACL."""
    def spell(tag, granted, number):
        name = number if tag in (USER, GROUP) else ""
        return f"{LETTERS[tag]}:{name}:" + "".join(c if granted & bit else "-" for c, bit in zip("rwx", (4, 2, 1)))
    return ",".join(spell(*entry) for entry in entries)


def packed(entries):
    """An ACL as the kernel takes it in an extended attribute."""
    return struct.pack("<I", VERSION) + b"".join(struct.pack("<HHI", *entry) for entry in entries)


def unpacked(value):
    """The ACL that the kernel gave."""
    return [struct.unpack_from("<HHI", value, at) for at in range(4, len(value), 8)]


def attribute(path, name):
    """The ACL in an extended attribute, or None."""
    try:
        return unpacked(os.getxattr(path, name))
    except OSError as fault:
        if fault.errno == errno.ENODATA:
            return None
        raise


def mode_of(text, largest):
    """The number of a mode argument."""
    mode = int(text, 8)
    if mode > largest:
        raise Refused("EINVAL")
    return mode


def flags_of(text):
    """The flags of an open by their letters."""
    has = {*text}
    if not has & {*"rw"} or has & {*"at"} and "w" not in has or "x" in has and "c" not in has:
        raise Refused("EINVAL")
    ways = os.O_RDWR if {*"rw"} <= has else os.O_WRONLY if "w" in has else os.O_RDONLY
    others = {"a": os.O_APPEND, "c": os.O_CREAT, "x": os.O_EXCL, "t": os.O_TRUNC}
    return ways | sum(bit for letter, bit in others.items() if letter in has)


def check_path(text):
    """Refuses a path that is misspelt or too long."""
    if len(text) > 1023:
        raise Refused("ENAMETOOLONG")
    names = text[1:].split("/") if text != "/" else []
    if text[:1] != "/" or any(not re.fullmatch("[!-~]+", name) or name in (".", "..") for name in names):
        raise Refused("EINVAL")
    if any(len(name) > 255 for name in names):
        raise Refused("ENAMETOOLONG")


def parent(path):
    """The path of the directory that a path's last name is in."""
    return path.rpartition("/")[0] or "/"


def mode_at(path):
    """The mode of what a path stands for, or None."""
    try:
        return os.stat(path).st_mode
    except OSError:
        return None


def is_directory(path):
    mode = mode_at(path)
    return mode is not None and stat.S_ISDIR(mode)


def walk(path):
    """The walk to a path whose last name may be absent: its directory has to be one, and to grant search."""
    os.stat(f"{parent(path)}/.")


def asks_write(path):
    """Whether the directory of a path's last name grants write."""
    if not os.access(parent(path), os.W_OK):
        raise Refused("EACCES")


def asks_owner(path):
    """In a directory with S_ISVTX: whether the caller owns it, or what the path stands for."""
    folder = os.stat(parent(path))
    if folder.st_mode & stat.S_ISVTX and os.getuid() not in (0, folder.st_uid, os.stat(path).st_uid):
        raise Refused("EPERM")


def asks_directory(path):
    """Whether a path stands for a directory, which has a default ACL."""
    if not stat.S_ISDIR(os.stat(path).st_mode):
        raise Refused("EINVAL")


def rmdir_tests(path):
    if path == "/":
        raise Refused("EBUSY")
    if not stat.S_ISDIR(os.stat(path).st_mode):
        raise Refused("ENOTDIR")
    asks_write(path)
    asks_owner(path)


def unlink_tests(path):
    if stat.S_ISDIR(os.stat(path).st_mode):
        raise Refused("EPERM")
    asks_write(path)
    asks_owner(path)


def link_tests(old, new):
    if stat.S_ISDIR(os.stat(old).st_mode):
        raise Refused("EPERM")
    walk(new)
    if mode_at(new) is not None:
        raise Refused("EEXIST")
    asks_write(new)


def rename_tests(old, new):
    if "/" in (old, new):
        raise Refused("EBUSY")
    moved = os.stat(old)
    walk(new)
    replaced = mode_at(new)
    if replaced is not None and os.path.samestat(moved, os.stat(new)):
        return
    if new.startswith(f"{old}/"):
        raise Refused("EINVAL")
    asks_write(old)
    asks_write(new)
    asks_owner(old)
    if replaced is not None:
        asks_owner(new)
        if stat.S_ISDIR(moved.st_mode) != stat.S_ISDIR(replaced):
            raise Refused("ENOTDIR" if stat.S_ISDIR(moved.st_mode) else "EISDIR")


def once_passed(tests, call, *paths):
    """Makes a call whose tests have passed. Where one refuses, the kernel has to refuse the call too."""
    try:
        tests(*paths)
    except (Refused, OSError) as first:
        try:
            call(*paths)
        except (ByRoot, OSError):
            raise first from None
        return
    call(*paths)


def move(old, new):
    """Renames. A directory that the caller may not write to is moved by user 0."""
    try:
        os.rename(old, new)
    except PermissionError:
        if is_directory(old) and parent(old) != parent(new) and not os.access(old, os.W_OK):
            raise ByRoot(f"rename {old} {new}") from None
        raise


class Kernel:
    """The calls of one session, in a process of its own."""

    def __init__(self):
        # What is open, by number: the kernel's number and the flags.
        self.files = {}
        # What user 0 has to do after the call.
        self.after = ""

    def umask(self, mode):
        return f"{os.umask(mode_of(mode, 0o777)):04o}"

    def mkdir(self, path, mode):
        os.mkdir(path, mode_of(mode, 0o777))

    def chmod(self, path, mode):
        os.chmod(path, mode_of(mode, 0o3777))

    def chown(self, path, user, group):
        os.chown(path, *(int(it) if it != "-" else -1 for it in (user, group)))

    def stat(self, path):
        it = os.stat(path)
        kind, links, size = ("d", 1, 0) if stat.S_ISDIR(it.st_mode) else ("f", it.st_nlink, it.st_size)
        return f"{kind} {it.st_mode & 0o7777:04o} {links} {it.st_uid} {it.st_gid} {size}"

    def rmdir(self, path):
        once_passed(rmdir_tests, os.rmdir, path)

    def unlink(self, path):
        once_passed(unlink_tests, os.unlink, path)

    def link(self, old, new):
        try:
            once_passed(link_tests, os.link, old, new)
        except PermissionError as fault:
            if fault.errno != errno.EPERM:
                raise
            raise ByRoot(f"link {old} {new}") from None

    def rename(self, old, new):
        try:
            once_passed(rename_tests, move, old, new)
        except FileExistsError:
            raise Refused("ENOTEMPTY") from None

    def readdir(self, path):
        return " ".join(sorted(os.listdir(path)))

    def descriptor(self, number, letter=""):
        """What is open under a number, for reading or writing as the letter says."""
        file, flags = self.files.get(int(number), (None, ""))
        if file is None or letter not in flags:
            raise Refused("EBADF")
        return file, flags

    def keep_group_bit(self, file, before):
        """Has S_ISGID put back where a file lost it."""
        now = os.fstat(file).st_mode
        if before & S_ISGID and not now & S_ISGID:
            self.after = f"chmod /proc/{os.getpid()}/fd/{file} {now & 0o7777 | S_ISGID:o}"

    def open(self, path, flags, mode="0000"):
        how, mode = flags_of(flags), mode_of(mode, 0o777)
        number = next((it for it in range(DESCRIPTORS) if it not in self.files), None)
        if number is None:
            raise Refused("EMFILE")
        before = mode_at(path)
        if before is not None and "x" not in flags:
            if stat.S_ISDIR(before):
                raise Refused("EISDIR")
            how &= ~os.O_CREAT
        file = os.open(path, how, mode)
        self.files[number] = file, flags
        if before is not None:
            self.keep_group_bit(file, before)
        return str(number)

    def close(self, number):
        os.close(self.descriptor(number)[0])
        del self.files[int(number)]

    def read(self, number, count):
        if int(count) > MOST_BYTES:
            raise Refused("EINVAL")
        return os.read(self.descriptor(number, "r")[0], int(count)).hex() or "-"

    def write(self, number, digits):
        content = bytes.fromhex(digits) if digits != "-" else b""
        if len(content) > MOST_BYTES:
            raise Refused("EINVAL")
        file, flags = self.descriptor(number, "w")
        before = os.fstat(file)
        start = before.st_size if "a" in flags else os.lseek(file, 0, os.SEEK_CUR)
        if content and start + len(content) > LARGEST_FILE:
            raise Refused("EFBIG")
        count = os.write(file, content)
        self.keep_group_bit(file, before.st_mode)
        return str(count)

    def seek(self, number, offset):
        file, _ = self.descriptor(number)
        if int(offset) > LARGEST_FILE:
            raise Refused("EINVAL")
        return str(os.lseek(file, int(offset), os.SEEK_SET))

    def ftruncate(self, number, size):
        file, _ = self.descriptor(number, "w")
        if int(size) > LARGEST_FILE:
            raise Refused("EFBIG")
        before = os.fstat(file).st_mode
        os.ftruncate(file, int(size))
        self.keep_group_bit(file, before)

    def access(self, path, want):
        if os.getuid() == 0:
            rights(want)
            os.stat(path)
            return
        if not os.access(path, rights(want)):
            # os.access tells no errno: a walk that is refused is refused for a stat too.
            os.stat(path)
            raise Refused("EACCES")

    def getacl(self, path, kind):
        if kind == "d":
            asks_directory(path)
            found = attribute(path, DEFAULT)
            return text_of(found) if found else "-"
        found = attribute(path, ACCESS)
        mode = os.stat(path).st_mode
        return text_of(found or [(tag, mode >> at & 7, NOBODY) for tag, at in ((USER_OBJ, 6), (GROUP_OBJ, 3), (OTHER, 0))])

    def setacl(self, path, kind, acl):
        if acl == "-":
            if kind == "a":
                raise Refused("EINVAL")
            asks_directory(path)
            os.removexattr(path, DEFAULT)
            return
        entries = acl_of(acl)
        if kind == "d":
            asks_directory(path)
        os.setxattr(path, {"a": ACCESS, "d": DEFAULT}[kind], packed(entries))

    def answer(self, call, arguments):
        """The reply, and behind a line's end what user 0 has to do then."""
        self.after = ""
        paths = {"link": 2, "rename": 2}.get(call, 0 if call in WITHOUT_PATH else 1)
        try:
            for path in arguments[:paths]:
                check_path(path)
            told = getattr(self, call)(*arguments)
        except Refused as fault:
            return f"err {fault}"
        except ByRoot as wanted:
            return f"ok\n{wanted}"
        except OSError as fault:
            return f"err {errno.errorcode[fault.errno]}"
        reply = f"ok {told}" if told else "ok"
        return f"{reply}\n{self.after}" if self.after else reply


class Session:
    """The process of a session, which lies in a folder as its root directory."""

    def __init__(self, folder, user, group, groups):
        self.user = user
        self.socket, theirs = socket.socketpair(socket.AF_UNIX, socket.SOCK_SEQPACKET)
        self.process = os.fork()
        if self.process == 0:
            self.socket.close()
            os.chroot(folder)
            os.chdir("/")
            os.setgroups(groups)
            os.setgid(group)
            os.setuid(user)
            os.umask(0o022)
            kernel = Kernel()
            while line := theirs.recv(MESSAGE).decode():
                call, *arguments = line.split(" ")
                theirs.send(kernel.answer(call, arguments).encode())
            os._exit(0)
        theirs.close()

    def ask(self, line):
        self.socket.send(line.encode())
        return self.socket.recv(MESSAGE).decode()

    def end(self):
        # Later sessions have copies of this end, so closing it isn't enough.
        self.socket.shutdown(socket.SHUT_RDWR)
        self.socket.close()
        os.waitpid(self.process, 0)


def numbers(text):
    """The numbers between commas, none for a dash."""
    return [int(it) for it in text.split(",")] if text != "-" else []


class Tree:
    """A folder that scripts run in, with the sessions that are logged in."""

    def __init__(self, folder):
        self.folder, self.sessions = folder, {}
        os.chmod(folder, 0o755)

    def mode(self, path):
        """The mode of what a path stands for, or None."""
        return mode_at(f"{self.folder}{path}")

    def answer(self, line):
        number, call, *arguments = line.split(" ")
        number = int(number)
        if number > 63:
            return "err EINVAL"
        if call == "login":
            if number in self.sessions:
                return "err EBUSY"
            user, group, groups = arguments
            self.sessions[number] = Session(self.folder, int(user), int(group), numbers(groups))
            return "ok"
        if number not in self.sessions:
            return "err EBADF"
        if call == "logout":
            self.sessions.pop(number).end()
            return "ok"
        sets = call in ("chmod", "chown", "setacl")
        before = self.mode(arguments[0]) if sets else None
        reply, _, after = self.sessions[number].ask(" ".join([call, *arguments])).partition("\n")
        if after:
            return self.by_root(after.split(" ")) or reply
        if reply == "ok" and sets:
            self.set_group_bit(self.sessions[number].user, call, arguments, before)
        return reply

    def by_root(self, words):
        """Does as user 0 what the kernel guards; the refusal, or nothing."""
        call, first, second = words
        try:
            if call == "chmod":
                os.chmod(first, int(second, 8))
            else:
                {"link": os.link, "rename": os.rename}[call](f"{self.folder}{first}", f"{self.folder}{second}")
        except FileExistsError:
            return "err ENOTEMPTY"
        except OSError as fault:
            return f"err {errno.errorcode[fault.errno]}"
        return ""

    def set_group_bit(self, user, call, arguments, before):
        """Sets S_ISGID as it is here after a chmod, a chown or a setacl that was answered."""
        now = self.mode(arguments[0])
        wanted = before
        if call == "chmod":
            wanted = int(arguments[1], 8) if stat.S_ISDIR(now) else now
        elif call == "chown" and not stat.S_ISDIR(now) and user != 0:
            wanted = 0
        if (wanted ^ now) & S_ISGID:
            os.chmod(f"{self.folder}{arguments[0]}", (now ^ S_ISGID) & 0o7777)

    def end(self):
        for session in self.sessions.values():
            session.end()


def by_kernel(lines):
    """The kernel's replies to a script's lines."""
    with tempfile.TemporaryDirectory() as folder:
        tree = Tree(folder)
        try:
            return [tree.answer(line) for line in lines]
        finally:
            tree.end()


def by_program(lines):
    """The program's replies to a script's lines, without what the kernel doesn't tell of a refusal."""
    with tempfile.NamedTemporaryFile("w") as script:
        script.write("".join(f"{line}\n" for line in lines))
        script.flush()
        image = f"{script.name}.img"
        subprocess.run([PROGRAM, "mkfs", image, "4096"], stdout=subprocess.DEVNULL, check=True)
        ran = subprocess.run([PROGRAM, "run", image, script.name], capture_output=True, text=True, check=True)
        os.remove(image)
    return [" ".join(it.split(" ")[:2]) if it.startswith("err ") else it for it in ran.stdout.splitlines()]


class Drawn:
    """Scripts that are drawn, of few users, groups and names, so that they meet.

    Each mode and each MASK lets the group search, and so does each entry of a group that grants write, so that no script
    comes to what isn't compared.
    """

    USERS, GROUPS, NAMES = (1000, 1001, 1002), (100, 101, 102), ("a", "b", "c")
    FILES = ("f", "g")
    FLAGS = ("r", "r", "rw", "w", "rwa", "wt", "rwc", "rwc", "wc", "wac", "rwct", "wcx", "rwcx", "rc", "ra", "x")
    OFFSETS = (0, 0, 1, 3, 9, 63, 64, 65, 4095, 4096, 65536, 67108863, 67108864, 67108865, 68719476735, 68719476736, 68719476737)

    def __init__(self, seed):
        self.random = random.Random(seed)

    def path(self, files=0.4):
        """A path of which the last name is that of a file, so often."""
        folders = [self.random.choice(self.NAMES) for _ in range(self.random.choice((0, 0, 1, 1, 2)))]
        last = self.random.choice(self.FILES if self.random.random() < files else self.NAMES)
        return "/" + "/".join([*folders, last])

    def rights(self):
        return "".join(self.random.choice((letter, letter, "-")) for letter in "rwx")

    def entry(self, tag, name):
        granted = self.rights()
        if tag == MASK or tag in (GROUP_OBJ, GROUP) and "w" in granted:
            granted = granted[:2] + "x"
        return f"{LETTERS[tag]}:{name}:{granted}"

    def acl(self):
        users = sorted(self.random.sample(self.USERS, self.random.randrange(3)))
        groups = sorted(self.random.sample(self.GROUPS, self.random.randrange(3)))
        entries = [(USER_OBJ, ""), *((USER, it) for it in users), (GROUP_OBJ, ""), *((GROUP, it) for it in groups)]
        if users or groups or self.random.random() < 0.3:
            entries.append((MASK, ""))
        return ",".join(self.entry(tag, name) for tag, name in [*entries, (OTHER, "")])

    def mode(self, largest):
        bits = self.random.randrange(largest + 1) | self.random.choice((0, 0o700, 0o755, 0o1777))
        return f"{bits & largest | 0o010:04o}"

    def access_line(self):
        """A call of modes, owners and ACLs."""
        path, draw = self.path(), self.random.random()
        if draw < 0.15:
            return f"chmod {path} {self.mode(0o3777)}"
        if draw < 0.3:
            return f"chown {path} {self.random.choice(('-', *self.USERS))} {self.random.choice(self.GROUPS)}"
        if draw < 0.5:
            kind = self.random.choice("ad")
            return f"setacl {path} {kind} {self.acl() if kind == 'a' or self.random.random() < 0.8 else '-'}"
        if draw < 0.75:
            return f"access {path} {self.rights()}"
        if draw < 0.95:
            return f"getacl {path} {self.random.choice('ad')}"
        return f"umask {self.random.choice(('0000', '0022', '0027', '0077', self.mode(0o777)))}"

    def name_line(self):
        """A call on names."""
        draw = self.random.random()
        if draw < 0.25:
            return f"mkdir {self.path(0.05)} {self.mode(0o777)}"
        if draw < 0.3:
            return f"stat {self.path()}"
        if draw < 0.4:
            return f"readdir {self.random.choice(('/', self.path(0.1), self.path(0.1)))}"
        if draw < 0.5:
            return f"link {self.path(0.9)} {self.path(0.9)}"
        if draw < 0.75:
            files = self.random.choice((0.1, 0.9))
            return f"rename {self.path(files)} {self.path(files)}"
        return f"rmdir {self.path(0.1)}" if draw < 0.87 else f"unlink {self.path(0.9)}"

    def file_line(self):
        """A call on a descriptor, of which each session has few."""
        file, draw = self.random.choice((0, 0, 0, 1, 1, 2)), self.random.random()
        if draw < 0.35:
            flags = self.random.choice(self.FLAGS)
            return f"open {self.path(0.9)} {flags}{f' {self.mode(0o777)}' if 'c' in flags else ''}"
        if draw < 0.42:
            return f"close {file}"
        if draw < 0.6:
            return f"read {file} {self.random.choice((0, 1, 4, 100, 100, 65536, 65537))}"
        if draw < 0.8:
            return f"write {file} {self.random.randbytes(self.random.choice((0, 1, 2, 5, 70))).hex() or '-'}"
        if draw < 0.92:
            return f"seek {file} {self.random.choice(self.OFFSETS)}"
        return f"ftruncate {file} {self.random.choice(self.OFFSETS)}"

    def line(self, logins, absent):
        """A line of one of the sessions; one that logged out mostly logs in again."""
        session, draw = self.random.choice((0, 1, 1, 2, 2, 3, 3)), self.random.random()
        if session in absent and draw < 0.7 or draw < 0.01:
            absent.discard(session)
            return logins[session]
        if draw < 0.02:
            absent.add(session)
            return f"{session} logout"
        call = self.access_line if draw < 0.3 else self.name_line if draw < 0.6 else self.file_line
        return f"{session} {call()}"

    def script(self):
        logins = ["0 login 0 0 -"]
        for session, user in enumerate(self.USERS, 1):
            groups = ",".join(map(str, self.random.sample(self.GROUPS, self.random.randrange(3)))) or "-"
            logins.append(f"{session} login {user} {self.random.choice(self.GROUPS)} {groups}")
        lines = [*logins, f"0 chmod / {self.random.choice(('0777', '1777'))}"]
        lines += [f"{session} mkdir /{name} 0777" for session, name in enumerate(self.NAMES, 1)]
        for session, name in enumerate(self.NAMES, 1):
            lines.append(f"{session} open /{name}/{self.random.choice(self.FILES)} rwc 0777")
        absent = set()
        return lines + [self.line(logins, absent) for _ in range(109)]


def compare(name, lines):
    """Prints each line of a script whose replies differ, and tells how many."""
    differ = 0
    for at, (line, kernel, program) in enumerate(zip(lines, by_kernel(lines), by_program(lines), strict=True), 1):
        if kernel != program:
            differ += 1
            print(f"{name}:{at}: {line}\n    kernel   {kernel}\n    program  {program}")
    return differ


def build():
    """Builds the program where it isn't up to date."""
    subprocess.run([TOP / "snapfs", "--build"], check=True)


def main(words):
    build()
    if words[:1] == ["--drawn"]:
        first = int(words[2]) if len(words) > 2 else 0
        scripts = [(f"seed {seed}", Drawn(seed).script()) for seed in range(first, first + int(words[1]))]
    else:
        scripts = [(word, Path(word).read_text().splitlines()) for word in words]
    differ = sum(compare(name, lines) for name, lines in scripts)
    print(f"{sum(len(lines) for _, lines in scripts)} lines of {len(scripts)} scripts, {differ} differ")
    return int(differ > 0)


if __name__ == "__main__":
    sys.exit(main(sys.argv[1:]))
