#!/usr/bin/env python3
"""Runs the commands that README.md and the manual page tell, in the order in which they are there, and tells which fail.

    .ci/pages.py [mount]

Each page has a folder of its own, with `examples` and the script `snapfs` in it, so what is run is what a reader has who copies the lines. Of
README, each row of a table of calls is also compared with the example that it is of. Commands that mount want root: they are run with the word
`mount`, in a namespace of mounts, by root where there is /dev/fuse, and else passed over with a line that counts them. The last line is
'pages: N commands, M wrong'; the status is 1 where one is wrong.
"""

import os
import re
import shutil
import subprocess
import sys
import tempfile
from pathlib import Path

TOP = Path(__file__).resolve().parent.parent
# What a page tells that isn't of the folder: a clone, and the gate.
ELSEWHERE = re.compile(r"git clone |\.ci/run$")
MOUNTS = re.compile(r"snapfs (mount|unmount) ")
ROW = re.compile(r"\| `(\d+ [^`]*)` \| `([^`]*)` \|")


def commands_of_readme(text):
    return [line.strip() for line in text.splitlines() if re.match(r"    \S", line)]


def commands_of_manual(text):
    """What follows a prompt in the section of examples."""
    examples = text.split(".Sh EXAMPLES\n")[1].split("\n.Sh ")[0]
    found = re.findall(r"^(?:\.Dl )?[$#] (.*)$", examples, re.M)
    return [re.sub(r"\\(.)", lambda it: {"e": "\\"}.get(it[1], it[1]), line) for line in found]


def run_all(page, commands, mounts):
    """How many commands a page has that were run, which went wrong, and how many were passed over."""
    folder = tempfile.mkdtemp()
    os.symlink(TOP / "snapfs", f"{folder}/snapfs")
    shutil.copytree(TOP / "examples", f"{folder}/examples")
    path = f"{folder}:{os.environ['PATH']}"
    count, wrong, passed = 0, [], 0
    for command in commands:
        if ELSEWHERE.search(command):
            continue
        if MOUNTS.search(command) and not mounts:
            passed += 1
            continue
        count += 1
        ran = subprocess.run(["bash", "-c", command], cwd=folder, env={**os.environ, "PATH": path, "SHELL": "/bin/true"},
                             stdin=subprocess.DEVNULL, capture_output=True, text=True, timeout=60)
        if ran.returncode != 0:
            wrong.append(f"{page}: {command}: status {ran.returncode}, {ran.stderr.strip()}")
    shutil.rmtree(folder)
    return count, wrong, passed


def calls_of(example):
    """The lines of an example, each with its reply."""
    lines = [line for line in example.read_text().splitlines() if line and not line.startswith("#")]
    return list(zip(lines, example.with_suffix(".replies").read_text().splitlines()))


def differing_rows(text):
    """The rows of calls in README that no example has with that reply."""
    known = {pair for example in (TOP / "examples").glob("*.snap") for pair in calls_of(example)}
    return [f"README: no example has {row}" for row in ROW.findall(text) if row not in known]


def main():
    mounts = sys.argv[1:] == ["mount"]
    if mounts and "PAGES_OWN_MOUNTS" not in os.environ:
        os.environ["PAGES_OWN_MOUNTS"] = "1"
        os.execvp("unshare", ["unshare", "-m", sys.executable, *sys.argv])
    readme, manual = (TOP / "README.md").read_text(), (TOP / "docs/snapfs.8").read_text()
    count, wrong, passed = 0, differing_rows(readme), 0
    for page, commands in (("README", commands_of_readme(readme)), ("manual", commands_of_manual(manual))):
        some, faults, left = run_all(page, commands, mounts)
        count, wrong, passed = count + some, wrong + faults, passed + left
    for line in wrong:
        print(f"wrong: {line}")
    if passed:
        print(f"passed over: {passed} commands that mount, which `.ci/pages.py mount` runs")
    print(f"pages: {count} commands, {len(wrong)} wrong")
    sys.exit(1 if wrong else 0)


if __name__ == "__main__":
    main()
