#!/usr/bin/env python3
"""Trees of files for import.sh, and what is the same of one after an import.

    bench/tar/same_tree.py make KIND DIR
    bench/tar/same_tree.py write KIND FILE STYLE
    bench/tar/same_tree.py compare DIR FOUND TOLD [--no-acls] [--no-holes]

`make` makes a tree: `plain` is what each format holds, `full` has long names, large numbers, ACLs, and what an image doesn't hold, `holes` has
files with holes. `write` has Python's tarfile write the tree of that name in the current folder. `compare` looks whether FOUND, an archive
that an export wrote or a folder that tar extracted, has all that DIR has but for what TOLD, the lines of an import, says: kinds, modes,
owners, ACLs, contents and which names are of one file. It prints what differs, or one line with how much is the same.

With --no-acls the archive had no ACLs, and each object has the three entries of its mode; with --no-holes files with holes are reported.
"""

import os
import re
import stat
import struct
import subprocess
import sys
import tarfile
from pathlib import Path

SET_UID = 0o4000
TAGS = {1: "user", 2: "user", 4: "group", 8: "group", 16: "mask", 32: "other"}
OWN = {1, 4, 16, 32}


def put(path, content, mode=0o644, owner=(0, 0)):
    path.write_bytes(content)
    os.chown(path, *owner)
    path.chmod(mode)


def put_directory(path, mode=0o755, owner=(0, 0)):
    path.mkdir(parents=True)
    os.chown(path, *owner)
    path.chmod(mode)


def set_acl(path, *words):
    subprocess.run(["setfacl", *words, path], check=True)


def make_plain(top):
    put_directory(top, 0o750, (1001, 100))
    put_directory(top / "empty", 0o1777)
    put_directory(top / "shared", 0o2770, (1001, 100))
    put(top / "nothing", b"")
    put(top / "block", b"b" * 512, 0o600, (1002, 100))
    put(top / "large", bytes(range(256)) * 300, 0o640, (1001, 1))
    put(top / "shared" / "notes", b"some notes\n", 0o2754, (1001, 100))
    put(top / "shared" / "twice", b"one file\n")
    os.link(top / "shared" / "twice", top / "once more")
    os.link(top / "shared" / "twice", top / "shared" / "thrice")


def make_full(top):
    make_plain(top)
    deep = top / ("directory" * 12) / ("n" * 120)
    put_directory(deep, 0o711)
    put(deep / ("name" * 40), b"a path of over 255 bytes", 0o604)
    put(top / "caf\u00e9 100%", b"letters", 0o444)
    put(top / "owner", b"of a large number", 0o600, (3000000, 4000000))
    put(top / "runs", b"as its owner", 0o4755)
    put(top / "reads", b"for some", 0o640)
    set_acl(top / "reads", "-m", "u:daemon:r,u:123456:rw,g:daemon:r,g:123457:-,m::rw")
    set_acl(top / "shared", "-m", "u:daemon:rwx,m::rwx")
    set_acl(top / "shared", "-d", "-m", "u::rwx,u:daemon:rw,g::rx,m::rwx,o::-")
    set_acl(top / "empty", "-d", "-m", "u::rwx,g::rx,o::-")
    os.symlink("reads", top / "leads")
    os.mkfifo(top / "pipe")
    os.mknod(top / "null", 0o666 | stat.S_IFCHR, os.makedev(1, 3))


def make_holes(top):
    put_directory(top)
    put(top / "dense", b"d" * 70000)
    for name, size, places in (("middle", 1 << 20, (0, 900000)), ("tail", 3 << 20, (0,)), ("front", 2000000, (1999000,))):
        with open(top / name, "wb") as file:
            file.truncate(size)
            for place in places:
                file.seek(place)
                file.write(b"here")


def write(kind, file, style):
    formats = {"ustar": tarfile.USTAR_FORMAT, "gnu": tarfile.GNU_FORMAT, "pax": tarfile.PAX_FORMAT}
    with tarfile.open(file, "w", format=formats[style]) as made:
        made.add(kind, ".")


def text_of(entries):
    return ",".join(sorted(f"{tag}:{who}:{rights}" for tag, who, rights in entries))


def acl_in(path, name):
    """An ACL as the system keeps it: entries of a tag, rights and a number after four bytes of version."""
    try:
        value = os.getxattr(path, f"system.posix_acl_{name}", follow_symlinks=False)
    except OSError:
        return None
    entries = []
    for tag, rights, who in struct.iter_unpack("<HHI", value[4:]):
        letters = "".join(letter if rights & bit else "-" for letter, bit in (("r", 4), ("w", 2), ("x", 1)))
        entries.append((TAGS[tag], "" if tag in OWN else str(who), letters))
    return text_of(entries)


def acl_of_text(text):
    return None if text is None else text_of(entry.split(":") for entry in text.split(","))


class Found:
    """What is known of an object: `first` is the least name of its file."""

    def __init__(self, kind, mode, owner, content, access, default):
        self.kind, self.mode, self.owner, self.content = kind, mode, owner, content
        self.access, self.default, self.first = access, default, None

    def parts(self):
        return {
            "kind": self.kind,
            "mode": oct(self.mode),
            "owner": self.owner,
            "access ACL": self.access,
            "default ACL": self.default,
            "content": self.content,
            "links": self.first,
        }


def kind_of(mode):
    kinds = ((stat.S_ISDIR, "directory"), (stat.S_ISREG, "file"), (stat.S_ISLNK, "symbolic link"), (stat.S_ISFIFO, "pipe"))
    return next((name for test, name in kinds if test(mode)), "device")


def of_folder(top):
    objects, files = {}, {}
    for path in [Path(top), *sorted(Path(top).rglob("*"))]:
        seen = path.lstat()
        name = str(path.relative_to(top))
        kind = kind_of(seen.st_mode)
        content = path.read_bytes() if kind == "file" else b""
        found = Found(kind, stat.S_IMODE(seen.st_mode), (seen.st_uid, seen.st_gid), content, acl_in(path, "access"), acl_in(path, "default"))
        found.has_holes = kind == "file" and 512 * seen.st_blocks < seen.st_size
        if kind == "file":
            found.first = files.setdefault(seen.st_ino, name)
        objects[name] = found
    return objects


def of_archive(file):
    objects = {}
    with tarfile.open(file, errors="surrogateescape") as read:
        for member in read:
            name = os.path.normpath(member.name)
            if member.islnk():
                objects[name] = objects[os.path.normpath(member.linkname)]
                continue
            content = read.extractfile(member).read() if member.isfile() else b""
            kind = "directory" if member.isdir() else "file" if member.isfile() else "other"
            access, default = (acl_of_text(member.pax_headers.get(f"SCHILY.acl.{which}")) for which in ("access", "default"))
            objects[name] = Found(kind, member.mode, (member.uid, member.gid), content, access, default)
    for name in sorted(objects):
        if objects[name].kind == "file" and objects[name].first is None:
            objects[name].first = name
    return objects


def without_three(found):
    """Three entries are those of the mode, and said by it; a directory with a default ACL is told both."""
    if found.access is not None and found.access.count(",") == 2:
        found.access = None


def wanted_of(top, has_acls, has_holes):
    """What an import makes of a tree, and what it reports: the last component of each name, with the reason."""
    wanted, reports = {}, []
    for name, found in of_folder(top).items():
        last = os.path.basename(name)
        if found.kind not in ("file", "directory"):
            reports.append((last, found.kind))
            continue
        if found.has_holes and not has_holes:
            reports.append((last, "sparse file"))
            continue
        if found.mode & SET_UID:
            reports.append((last, "set-user-ID dropped"))
            found.mode &= ~SET_UID
        if not has_acls:
            found.access = found.default = None
        wanted[name] = found
    return wanted, sorted(reports)


def reports_in(file):
    found = []
    for line in Path(file).read_text().splitlines():
        entry = re.fullmatch(r"snapfs: entry \d+ (.*): ([^:]*)", line)
        found.append((os.path.basename(entry[1]), entry[2]) if entry else (line, "no report of an entry"))
    return sorted(found)


def shown(value):
    return f"{len(value)} bytes" if isinstance(value, bytes) else value


def compare(top, place, told, options):
    wanted, reports = wanted_of(top, "--no-acls" not in options, "--no-holes" not in options)
    found = of_folder(place) if os.path.isdir(place) else of_archive(place)
    for each in (*wanted.values(), *found.values()):
        without_three(each)
    differing = [f"{name}: only in the source" for name in wanted.keys() - found.keys()]
    differing += [f"{name}: only in what was made" for name in found.keys() - wanted.keys()]
    for name in wanted.keys() & found.keys():
        made = found[name].parts()
        for part, value in wanted[name].parts().items():
            if value != made[part]:
                differing.append(f"{name}: {part} {shown(made[part])} for {shown(value)}")
    seen = reports_in(told)
    differing += [f"not reported: {each}" for each in reports if each not in seen]
    differing += [f"reported: {each}" for each in seen if each not in reports]
    print("\n".join(sorted(differing)) or f"{len(wanted)} objects are the same, {len(reports)} are reported")
    return 1 if differing else 0


def main():
    match sys.argv[1:]:
        case ["make", kind, top]:
            {"plain": make_plain, "full": make_full, "holes": make_holes}[kind](Path(top))
        case ["write", kind, file, style]:
            write(kind, file, style)
        case ["compare", top, place, told, *options]:
            return compare(top, place, told, options)
        case _:
            sys.exit(__doc__)
    return 0


if __name__ == "__main__":
    sys.exit(main())
