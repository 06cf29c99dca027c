#!/usr/bin/env python3
"""Runs the program on scripts and command lines that were changed at random places, and looks at how each ends.

    bench/hostile/changed.py [COUNT [SEED]]

Run by hand: builds the program where it isn't up to date. COUNT is 10,000 where it isn't given; half of the cases are scripts
of the repository's examples with one to four bytes changed, taken out or put in, and half are command lines with one to
three words changed, left out, put in or exchanged. Each has to end by itself with a status of docs/snapfs.8, with
the line on standard error that goes with it and none other, and where it is refused, with nothing on standard output, the
files as they were and no new one. A script that is run has a line of reply for each line.
"""

import hashlib
import random
import re
import subprocess
import sys
import tempfile
from pathlib import Path

TOP = Path(__file__).resolve().parents[2]
PROGRAM = TOP / "crates/sn_bin/out/sn_bin"
# The lines on standard error of what was refused: by them no file was changed.
REFUSED = re.compile(r"snapfs: (usage|script line \d+|file|K1|M1|M2|M3)\n")
BYTES = [*range(256)]
WORDS = ["", "-", "--help", "-h", "help", "run", "mkfs", "stop-at", "check", "4", "04", "+4", "4294967296", "256", "255", "old",
         "new", "zero", "one", "junk", "seeded", "image", "other", "script", "bad", "nowhere/x", ".", "/dev/null", "caf\u00e9"]
COMMANDS = [["run", "image", "script"], ["mkfs", "other", "256"], ["stop-at", "4", "junk", "image", "script", "other"]]


def changed_bytes(drawn, data):
    """The bytes with a few of them changed."""
    data = bytearray(data)
    for _ in range(drawn.randint(1, 4)):
        at, how = drawn.randrange(len(data) + 1), drawn.randrange(3)
        if how == 0:
            data[at:at] = bytes([drawn.choice(BYTES)])
        elif how == 1:
            del data[at : at + 1]
        else:
            data[at : at + 1] = bytes([drawn.choice(BYTES)])
    return bytes(data)


def changed_words(drawn, words):
    """The words with a few of them changed."""
    words = list(words)
    for _ in range(drawn.randint(1, 3)):
        at, how = drawn.randrange(len(words) + 1), drawn.randrange(4)
        if how == 0:
            words.insert(at, drawn.choice(WORDS))
        elif how == 1:
            del words[at : at + 1]
        elif how == 2 and words:
            other = drawn.randrange(len(words))
            at = min(at, len(words) - 1)
            words[at], words[other] = words[other], words[at]
        else:
            words[at : at + 1] = [drawn.choice(WORDS)]
    return words


def state(folder):
    """Each file of a folder with what it has."""
    return {path.name: hashlib.sha256(path.read_bytes()).digest() for path in sorted(folder.iterdir())}


def wrong(words, ran, before, after, lines):
    """What isn't as it has to be, or None."""
    told = ran.stderr
    # The replies of a run that was cut short are written before what is left of it can't be.
    may_say = words[0:1] == ["stop-at"] and told == b"snapfs: file\n"
    if ran.returncode not in (0, 1, 2):
        return f"status {ran.returncode}"
    if (ran.returncode == 2) != (told == b"snapfs: usage\n"):
        return "usage and its status"
    if ran.returncode == 1 and not re.fullmatch(rb"snapfs: [^\n]*\n", told):
        return "no line, or more than one"
    refused = ran.returncode != 0 and REFUSED.fullmatch(told.decode("latin1"))
    if refused and (after != before or (ran.stdout and not may_say)):
        return "something was written though it was refused"
    if ran.returncode == 0 and lines is not None and ran.stdout.count(b"\n") != lines:
        return "not a reply for each line"
    return None


class Case:
    """A folder with an image and scripts, for one case after the other."""

    def __init__(self, folder, scripts):
        self.folder, self.scripts = folder, scripts
        self.run(["mkfs", "image", "256"])
        self.fresh = (folder / "image").read_bytes()
        (folder / "bad").write_bytes(b"0 mkdir\n")

    def run(self, words):
        return subprocess.run([PROGRAM, *words], cwd=self.folder, capture_output=True, timeout=60)

    def answer(self, drawn, number):
        """The words of a case, and what is wrong with its end."""
        (self.folder / "image").write_bytes(self.fresh)
        (self.folder / "other").unlink(missing_ok=True)
        script = drawn.choice(self.scripts)
        words, lines = COMMANDS[0], None
        if number % 2:
            script = changed_bytes(drawn, script)
            lines = script.count(b"\n")
        else:
            words = changed_words(drawn, drawn.choice(COMMANDS))
        (self.folder / "script").write_bytes(script)
        before = state(self.folder)
        ran = self.run(words)
        found = wrong(words, ran, before, state(self.folder), lines)
        kept = {"image", "script", "bad", "other"}
        for path in self.folder.iterdir():
            if path.name not in kept:
                path.unlink()
        (self.folder / "bad").write_bytes(b"0 mkdir\n")
        return words, script, ran, found


def main(words):
    count = int(words[0]) if words else 10_000
    seed = int(words[1]) if len(words) > 1 else 0
    scripts = [path.read_bytes() for path in sorted((TOP / "examples").glob("*.snap"))]
    ended, bad = {}, 0
    with tempfile.TemporaryDirectory() as name:
        subprocess.run([TOP / "snapfs", "--build"], check=True)
        case = Case(Path(name), scripts)
        for number in range(count):
            drawn = random.Random(seed + number)
            asked, script, ran, found = case.answer(drawn, number)
            ended[ran.returncode] = ended.get(ran.returncode, 0) + 1
            if found:
                bad += 1
                print(f"seed {seed + number}: {asked}: {found}\n    {script!r}\n    {ran}")
    ends = ", ".join(f"{ended[status]} with {status}" for status in sorted(ended))
    print(f"{count} cases: {ends}; {bad} wrong")
    return int(bad > 0)


if __name__ == "__main__":
    sys.exit(main(sys.argv[1:]))
