#!/usr/bin/env python3
"""Compares what pages tell of crates, cases, messages, minutes and definitions with what there is. Prints what differs; the status is 1 then.

    .ci/numbers.py

Each number is counted in `crates.txt`, in the tables of test programs, in what these print (their `stdout`, which the gate compares), or by
`.ci/definitions.py`. A row of TOLD is a page, the words around its numbers, and what they have to be: where the words of a page change, its
row does too.
"""

import re
import subprocess
import sys
from pathlib import Path

TOP = Path(__file__).resolve().parent.parent
WORDS = "no one two three four five six seven eight nine ten eleven twelve thirteen fourteen fifteen sixteen seventeen eighteen".split()
# Groups of crates.txt that docs/ARCHITECTURE.md may list as one or not at all, and in which crates come in any order.
TESTS = ("Test support", "Cases", "Tests")


def text_of(path):
    return (TOP / path).read_text(encoding="utf-8")


def printed():
    """The cases that test programs print, by the words of each line: every number of a line, in the order of the programs."""
    found = {}
    for path in sorted(TOP.glob("crates/sn_tests*/stdout")):
        for line in path.read_text(encoding="utf-8").splitlines():
            words, _, count = line.partition(": ")
            if re.match(r"\d", count):
                found.setdefault(words, []).append(int(re.match(r"\d+", count)[0]))
    return found


CASES = printed()


def cases(*names):
    """The numbers of cases of these lines, each of which all programs together print once."""
    for name in names:
        if len(CASES.get(name, [])) != 1:
            sys.exit(f"the test programs print '{name}' {len(CASES.get(name, []))} times")
    return [CASES[name][0] for name in names]


def messages(pattern):
    """How many messages the conversations of a name have, and how many of these there are."""
    files = [path for path in TOP.glob("crates/sn_tests*/data/**/conversations/*.txt") if re.fullmatch(pattern, path.stem)]
    return [sum(path.read_text().count("\n> ") for path in files), len(files)]


def groups():
    """The groups of crates.txt with their crates, and what each crate stands on."""
    found, uses = {}, {}
    for line in text_of("crates.txt").splitlines():
        name, _, below = line.partition(":")
        if line.startswith("# "):
            group = found.setdefault(name[2:], [])
        elif line:
            group.append(name.split()[0])
            uses[name.split()[0]] = below.split()
    return {group: crates for group, crates in found.items() if crates}, uses


def edits(pattern):
    """How many edits there are, and in how many folders."""
    found = list(TOP.glob(pattern))
    return [len(found), len({path.parent for path in found})]


def definitions(*words):
    """How many lines of definitions contracts name, and how many their files have."""
    told = subprocess.run([TOP / ".ci/definitions.py", *words], check=True, capture_output=True, text=True).stdout
    return re.findall(r"\d+", told.splitlines()[-1])


def rounded(count, to):
    return round(count / to) * to


def trees():
    fitting, others = cases("trees", "trees that need more than is free")
    return [fitting + others, others]


SNAPSHOTS = ("a new snapshot", "one snapshot less", "a snapshot that is brought back")
# Of the rows on new disks, and of those on disks of version 1.
FAILING = CASES["rows of which one call of the device fails, of each 5"]
CRASHES = CASES["rows cut short behind each write, by 1 of 7 kinds of crashes"]
THREE_DEEP = CASES["runs behind each 24 of these writes, cut short behind each 7 of their own, three deep"]
ARCHITECTURE, TESTED, HOSTILE, THEOREM = "docs/ARCHITECTURE.md", "docs/TESTED.md", "docs/HOSTILE.md", "docs/THEOREM.md"
TOLD = [
    ("README.md", r"(\w+) processor minutes from nothing. That program", lambda: re.findall(r"some (\d+) processor", text_of("snapfs"))),
    ("README.md", r"refuses (\w+) wrong bodies", lambda: edits("crates/*/must-fail/*.edit")[:1]),
    ("README.md", r"some ([\d,]+) lines of definitions", lambda: [rounded(int(definitions()[0]), 100)]),
    (THEOREM, r"`run` alone \| ([\d,]+) \| ([\d,]+)", lambda: definitions("sn_run/src/running.rt", "run")),
    (THEOREM, r"`Fs::call` \| ([\d,]+) \| ([\d,]+)", definitions),
    (ARCHITECTURE, r"(\w+) in (\w+) crates, which say", lambda: edits("crates/*/must-fail/*.edit")),
    (ARCHITECTURE, r"some ([\d,]+) in `bench/wrong_bodies`", lambda: [rounded(edits("bench/wrong_bodies/*/*.edit")[0], 100)]),
    (ARCHITECTURE, r"(\w+) test programs run the cases", lambda: [len(list(TOP.glob("crates/sn_tests*/src/main.rt")))]),
    (TESTED, r"the (\S+) messages of (\S+) conversations", lambda: messages("(?!drawn|tar).*")),
    (TESTED, r"([\d,]+) drawn ones", lambda: messages("drawn.*")[:1]),
    (TESTED, r"(\d+) of `tar` that", lambda: messages("tar")[:1]),
    (TESTED, r"(\d+) heads, (\d+) that", lambda: cases("tar/heads.txt", "tar/read.txt")),
    (TESTED, r"(\d+) records", lambda: cases("tar/records.txt")),
    (TESTED, r"(\d+) rows \(`bench/tar/tables.py`\)", lambda: cases("tar/acls.txt")),
    (TESTED, r"(\d+) trees with all kinds", lambda: cases("tar/trees.txt")),
    (TESTED, r"(\d+) rows \(`bench/tar/imports.py`\)", lambda: cases("tar/imports.txt")),
    (TESTED, r"archives of (\d+) drawn trees, and", lambda: cases("archives of drawn trees")),
    (TESTED, r"archives of (\d+) drawn trees, imported", lambda: cases("drawn trees that are imported and exported again")),
    (TESTED, r"each of (\d+) that are damaged", lambda: cases("archives that are damaged")),
    (TESTED, r"(\d+) drawn, and as (\d+) cases", lambda: cases("nodes/drawn.txt", "nodes/hand.txt")),
    (TESTED, r"limits of the code \((\d+)\)", lambda: cases("manual/limits.txt")),
    (TESTED, r"answers for each \((\d+) lines\)", lambda: cases("manual/errors.txt")),
    (TESTED, r"the (\d+) lines on standard error, the (\w+) statuses", lambda: cases("manual/lines.txt", "manual/statuses.txt")),
    (TESTED, r"(\d+) texts", lambda: cases("names/groups.txt")),
    (TESTED, r"([\d,]+) drawn names of each side", lambda: cases("drawn names of a mount, there and back")),
    (TESTED, r"(\d+) trees, (\d+) of which don't fit", trees),
    (TESTED, r"(\d+) with a new snapshot, (\d+) with one less and (\d+) with", lambda: cases(*(f"maps with {it}" for it in SNAPSHOTS))),
    (TESTED, r"(\d+) points; by hand", lambda: cases("points")),
    (HOSTILE, r"in the gate each fifth, (\d+)", lambda: FAILING[:1]),
    (HOSTILE, r"in the gate one of these seven after each write, ([\d,]+)", lambda: CRASHES[:1]),
    (HOSTILE, r"in the gate (\d+) calls that fail, (\d+) crashes", lambda: [FAILING[1], CRASHES[1]]),
    (HOSTILE, r"([\d,]+) recoveries that are cut short, (\d+) by themselves", lambda: [THREE_DEEP[1], *cases("disks of version 1 that are taken over")]),
    (HOSTILE, r"each 7th of the recovery's, (\d+)", lambda: THREE_DEEP[:1]),
    (HOSTILE, r"in the gate (\d+) \| `bench/\S+ images", lambda: cases("hostile/images.txt")),
    (HOSTILE, r"in the gate (\d+), and nine first lines", lambda: cases("hostile/scripts.txt")),
    (HOSTILE, r"in the gate (\d+) \| `sn_tests_\w+`", lambda: cases("reads of a directory of 40 blocks, each refused once")),
]


def number(word):
    """The number that a word of a page is."""
    if word.lower() in WORDS:
        return WORDS.index(word.lower())
    return int(word.replace(",", "")) if re.fullmatch(r"[\d,]+", word) else None


def told_wrong():
    """The numbers of pages that differ. Words of a page are found over its line ends."""
    for page, pattern, counted in TOLD:
        found = re.search(pattern.replace(" ", r"\s+"), text_of(page))
        there = [int(count) for count in counted()]
        if not found:
            yield f"{page} doesn't say '{pattern}', which is {there} (.ci/numbers.py)"
        elif [number(word) for word in found.groups()] != there:
            yield f"{page} says '{' '.join(found[0].split())}', and there are {there}"


def shown_crates():
    """The crates that the page of crates has below each heading."""
    parts = re.split(r"^### (.+)$", text_of(ARCHITECTURE), flags=re.M)
    return {title: set(re.findall(r"^[|-] `(sn_\w+)`(?: \||:)", text.split("\n## ")[0], re.M)) for title, text in zip(parts[1::2], parts[2::2])}


def crates_wrong():
    """What the page of crates and crates.txt have that differs, and what uses a crate that comes after it."""
    listed, uses = groups()
    names, page = list(uses), shown_crates()
    tests = {crate for group in TESTS for crate in listed.get(group, [])}
    shown_tests = set().union(*(page.get(group, set()) for group in TESTS))
    pairs = [("tests", shown_tests, tests if shown_tests else set())]
    for group in (it for it in listed if it not in TESTS):
        pairs.append((group, next((found for title, found in page.items() if group.startswith(title)), set()), set(listed[group])))
    for group, shown, there in pairs:
        for crate in sorted(shown ^ there):
            yield f"{crate}: {'crates.txt' if crate in shown else ARCHITECTURE} doesn't have it under '{group}'"
    for crate in (it for it in names if it not in tests):
        yield from (f"{crate} uses {it}, which comes after it" for it in uses[crate] if it in names[names.index(crate) :])


def main():
    wrong = [*told_wrong(), *crates_wrong()]
    print("\n".join(wrong), end="\n" if wrong else "")
    sys.exit(1 if wrong else 0)


if __name__ == "__main__":
    main()
