#!/usr/bin/env python3
"""Compares the lists of CONTRIBUTING.md, where something new is added, and the paths of all pages with what is there. Prints what they lack;
the status is 1 then.

    .ci/places.py

A list is below a heading that names one or two that are there already, as `### A call, as `Ftruncate``. Each source, definition and lemma
that names one of these has to be in the list, by itself or by its folder: tests, and the proofs of single functions, aside. Each path on a
page has to be there, and each script of `bench/` has to be on its page. Paths are told from the top or from `crates/`, and `{a,b}` in one
stands for several.
"""

import re
import subprocess
import sys
from pathlib import Path

TOP = Path(__file__).resolve().parent.parent
PAGE = "CONTRIBUTING.md"
HEADING = re.compile(r"^### .*?, as (?P<words>`.*)$", re.M)
# A word that stands for others, as NAME, the front of names, a folder of any crate, and what is no path.
NO_PATH = re.compile(r"\b[A-Z]{4,}\b(?!\.md)|_$|^[\w-]+/$|\.\.|[*<:]")
# The front of a path that a page tells from the top.
FROM_TOP = re.compile(r"(?:\.ci|bench|crates|docs|examples|release)/")
# A source, a definition or a lemma of a crate that has no test cases.
SEARCHED = re.compile(r"crates/(?!sn_tests)\w+/(?:src/.*\.rt|specs/.*\.antt|proofs/\w+\.antt)")


def expanded(path):
    """The paths that a path with braces stands for."""
    found = re.search(r"\{([^{}]*)\}", path)
    if not found:
        return [path]
    front, rest = path[: found.start()], path[found.end() :]
    return [whole for piece in found[1].split(",") for whole in expanded(front + piece + rest)]


def from_top(path):
    return f"crates/{path}" if path.startswith("sn_") else path


def paths_in(text):
    """The paths that a text names, but for those with a word that stands for others, as NAME."""
    words = [quoted.split()[0] for quoted in re.findall(r"`([^`\n]+)`", text)]
    paths = [from_top(path) for word in words if not NO_PATH.search(word) for path in expanded(word)]
    return [path for path in dict.fromkeys(paths) if "/" in path]


def pages():
    """The pages written by hand, each with its text."""
    listed = subprocess.run(["git", "ls-files", "*.md"], cwd=TOP, capture_output=True, text=True, check=True).stdout.split()
    return {path: (TOP / path).read_text(encoding="utf-8") for path in listed if path != "docs/PROVED.md"}


def lost_paths(page, text):
    """The paths that a page names and that aren't there. A page other than CONTRIBUTING.md tells them from a folder of the top."""
    named = paths_in(text) if page == PAGE else [path for path in paths_in(text) if FROM_TOP.match(path)]
    return [f"{page} names {path}, which isn't there" for path in named if not (TOP / path).exists()]


def unlisted_scripts(page):
    """The scripts of bench/ that its page doesn't name."""
    scripts = {path.name for pattern in ("*.py", "*.sh") for path in (TOP / "bench").rglob(pattern) if "out" not in path.parts}
    return [f"bench/README.md doesn't name {name}" for name in sorted(scripts) if f"`{name}`" not in page]


def lists_of(page):
    """The words that each list is for, with what it has."""
    heads = list(HEADING.finditer(page))
    for head in heads:
        text = re.split(r"^##", page[head.end() :], maxsplit=1, flags=re.M)[0]
        yield re.findall(r"`(\w+)`", head["words"]), paths_in(text)


def files_naming(words):
    """The files that are searched and have one of the words."""
    command = ["git", "grep", "-lwE", "|".join(words), "--", "crates"]
    found = subprocess.run(command, cwd=TOP, capture_output=True, text=True, check=False).stdout
    return [path for path in found.split("\n") if SEARCHED.fullmatch(path)]


def is_listed(path, listed):
    return any(path == it or path.startswith(it.rstrip("/") + "/") for it in listed)


def main():
    texts = pages()
    wrong = [line for page, text in texts.items() for line in lost_paths(page, text)]
    wrong += unlisted_scripts(texts["bench/README.md"])
    for words, listed in lists_of(texts[PAGE]):
        named = files_naming(words)
        wrong += [] if named else [f"no file names {' or '.join(words)}, which {PAGE} has a list for"]
        wrong += [f"{path} names {' or '.join(words)}, and {PAGE} doesn't list it" for path in named if not is_listed(path, listed)]
    print("\n".join(wrong), end="\n" if wrong else "")
    sys.exit(1 if wrong else 0)


if __name__ == "__main__":
    main()
