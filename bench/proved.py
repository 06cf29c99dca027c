#!/usr/bin/env python3
"""Makes docs/PROVED.md of the marked lines of doc in the sources, by the groups of crates.txt from the program down, those of tests last.

    bench/proved.py [check]

With check it writes nothing, and its status is 1 where the page isn't what it would write. A marked line is in the doc of the
item whose contract says it, and goes on to the next marked or empty line of the doc:

    /// Proved: A crash at any moment leaves the old root or the next one.
    /// Proved, also of `step` and `restart`: Each reply is one of the machine.

What the page has beside them is written by hand in bench/proved.txt: its head, and below the name of a group or a crate what is to
be said of it. A library that is no test has a marked line or words of its own there.
"""

import re
import sys
from pathlib import Path

TOP = Path(__file__).resolve().parent.parent
PAGE = TOP / "docs/PROVED.md"
MARK = re.compile(r"Proved(?:, also of (?P<also>[^:]+(?:::[^:]+)*))?: (?P<said>.+)")
FUNCTION = re.compile(r"(?P<indent>\s*)(?:pub(?:\([^)]*\))? )?(?:const )?fn (?P<name>\w+)")
TYPE = re.compile(r"(?:pub )?(?:struct|enum|trait|type) (?P<name>\w+)")
OWNER = re.compile(r"(?:pub )?(?P<kind>impl|trait)\b")
# Groups of crates whose lines are asked of nobody: they are tests, or only tests use them. They come last, after what tests compare with.
TESTS = ("Test support", "Cases", "Tests")
LAST = ("Reference", *TESTS)


def groups_of(text):
    """The groups of crates.txt, each with its crates, from the lowest up."""
    groups, name = {}, None
    for line in text.split("\n"):
        if line.startswith("# "):
            name = line[2:].split(":")[0]
        elif line and name:
            groups.setdefault(name, []).append(line.split(":")[0].split()[0])
    return groups


def words_by_hand(text):
    """The head of the page, and the words below each name."""
    head, *parts = re.split(r"^## (.+)$", text, flags=re.MULTILINE)
    return head.strip(), {name: words.strip() for name, words in zip(parts[::2], parts[1::2])}


def owner_of(line):
    """The type of an impl or the name of a trait that a line begins."""
    rest = re.sub(r"^(?:pub )?(?:impl|trait)\s*", "", line)
    depth = end = 0
    if rest.startswith("<"):
        for end, letter in enumerate(rest, 1):
            depth += (letter == "<") - (letter == ">" and rest[end - 2] != "-")
            if depth == 0:
                break
    words = rest[end:].strip()
    trait = re.match(r"(\w+)(?:<.*?>)? for ", words)
    found = re.match(r"&?(?:mut )?(\w+)", words[trait.end() :] if trait else words)
    return found[1], trait and trait[1]


def is_law(line):
    """Whether the line of a function says that it takes nothing and gives nothing."""
    return re.search(r"pub fn \w+\(\)(?: \{\}?)?$", line)


def item_at(line, owner):
    """What the item that begins with a line is called on the page."""
    function, kind = FUNCTION.match(line), TYPE.match(line)
    if function:
        name = function["name"]
        shown = f"`{owner}::{name}`" if function["indent"] and owner else f"`{name}`"
        return shown + (" (law)" if is_law(line) else "")
    if kind:
        return f"`{kind['name']}`"
    if OWNER.match(line):
        name, trait = owner_of(line)
        return f"`{trait}` for `{name}`" if trait else f"`{name}`"
    return None


def marks_of(doc):
    """The marked lines of a doc, each on one line."""
    found, is_open = [], False
    for line in doc:
        if line.startswith("Proved"):
            found.append(line)
            is_open = True
        elif is_open and line:
            found[-1] += " " + line
        else:
            is_open = False
    return found


def rows_of_file(path):
    """What a source says is proved: each sentence, and by which items."""
    lines, owner, doc = path.read_text(encoding="utf-8").split("\n"), None, []
    for at, line in enumerate(lines):
        text = line.strip()
        if text.startswith("///"):
            doc.append(text[3:].strip())
            continue
        if doc and text.startswith("#["):
            continue
        if OWNER.match(line):
            owner = owner_of(line)[0]
        for mark in marks_of(doc):
            found, item = MARK.fullmatch(mark), item_at(line, owner)
            if not found or not item:
                sys.exit(f"{path.relative_to(TOP)}, line {at}: no marked line of an item: {mark}")
            others = (found["also"] or "").replace(" and ", ", ")
            yield found["said"].replace("|", "\\|"), f"{item}, {others}" if others else item
        doc = []


def rows_of_crate(name):
    """What a crate says is proved, its root file first."""
    files = sorted((TOP / "crates" / name / "src").rglob("*.rt"), key=lambda it: (it.name not in ("lib.rt", "main.rt"), it))
    return [row for file in files for row in rows_of_file(file)]


def page_of(groups, head, words):
    """The page, and what it lacks."""
    made, lacking = [head], [it for it in words if it not in groups and it not in sum(groups.values(), [])]
    for group, crates in sorted(reversed(groups.items()), key=lambda it: LAST.index(it[0]) + 1 if it[0] in LAST else 0):
        parts = []
        for crate in reversed(crates):
            rows = rows_of_crate(crate)
            if crate in words or rows:
                parts.append(f"### {crate}")
            if crate in words:
                parts.append(words[crate])
            if rows:
                table = [f"| {said} | {by} |" for said, by in rows]
                parts.append("\n".join(["| what holds | by |", "|---|---|", *table]))
            elif crate not in words and group not in TESTS:
                lacking.append(crate)
        if parts or group in words:
            made += [f"## {group}", *([words[group]] if group in words else []), *parts]
    return "\n\n".join(made) + "\n", lacking


def main():
    if sys.argv[1:] not in ([], ["check"]):
        sys.exit(__doc__.strip())
    groups = groups_of((TOP / "crates.txt").read_text(encoding="utf-8"))
    head, words = words_by_hand((TOP / "bench/proved.txt").read_text(encoding="utf-8"))
    page, lacking = page_of(groups, head, words)
    for name in lacking:
        print(f"{name}: bench/proved.txt has words of it, and crates.txt has no such name, or nothing says what is proved of it")
    if not sys.argv[1:]:
        PAGE.write_text(page, encoding="utf-8")
    elif page != PAGE.read_text(encoding="utf-8"):
        print("docs/PROVED.md isn't what bench/proved.py makes of the sources: run it")
        sys.exit(1)
    sys.exit(1 if lacking else 0)


if __name__ == "__main__":
    main()
