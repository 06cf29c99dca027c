#!/usr/bin/env python3
"""Prints the archives that `commands.txt` of sn_tests_program imports, as lines `NAME bytes HEX..`, where `HEX*COUNT` is a byte so
many times. Python's tarfile makes them.

    bench/tar/commands.py
"""

import io
import itertools
import tarfile


def entry(name, kind=tarfile.REGTYPE, mode=0o644, owner=(0, 0), link="", content=b"", records=None):
    info = tarfile.TarInfo(name)
    info.type, info.mode, (info.uid, info.gid), info.linkname = kind, mode, owner, link
    info.size = len(content)
    info.pax_headers = records or {}
    return info, content


def archive(*entries):
    out = io.BytesIO()
    with tarfile.open(fileobj=out, mode="w", format=tarfile.PAX_FORMAT) as tar:
        for info, content in entries:
            tar.addfile(info, io.BytesIO(content))
    return out.getvalue()


ARCHIVES = {
    "tree.tar": archive(
        entry("a", tarfile.DIRTYPE, 0o2750, (1001, 100)),
        entry("a/f", mode=0o640, owner=(1001, 100), content=b"hello\n"),
        entry("a/g", tarfile.LNKTYPE, link="a/f"),
        entry("a/b c", content=b"x", records={"SCHILY.acl.access": "user::rw-,user:1002:r--,group::r--,mask::r--,other::---"}),
    ),
    "odd.tar": archive(
        entry("l", tarfile.SYMTYPE, link="a"),
        entry("s", mode=0o4755),
        entry("../x"),
        entry("p", tarfile.FIFOTYPE),
        entry("n", records={"SCHILY.acl.access": "user::rw-,user:nobody-has-this-name:r--,group::r--,mask::r--,other::---"}),
        entry("a/f", tarfile.DIRTYPE, 0o755),
        entry("a", content=b"y"),
        entry("last"),
    ),
}


def words(data):
    for byte, run in itertools.groupby(data):
        count = len(list(run))
        yield f"{byte:02x}*{count}" if count > 3 else f"{byte:02x}" * count


def joined(data):
    text = ""
    for word in words(data):
        ends_open = text and "*" not in text.rsplit(" ", 1)[-1]
        text += word if ends_open and "*" not in word else (" " if text else "") + word
    return text


for name, data in ARCHIVES.items():
    print(f"{name} bytes {joined(data)}")
