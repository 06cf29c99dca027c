#!/usr/bin/env python3
"""Tries the wrong bodies of bench/wrong_bodies/CRATE, which the gate leaves out; run by hand before a release.

    bench/wrong_bodies.py [--jobs N] [--gate] [--apart WORKERS] [CRATE..]

Each file there is an edit as those in crates/CRATE/must-fail: a line `file:`, then pairs of lines `old:` and `new:`.
Edits of different functions are made in one copy of the repository, which is checked once; an edit fails where the
function that it changes has an error of its own. Those whose functions only wait for others are tried again without those
that failed; what is left then is tried by itself, where any error counts, and so is an edit of a definition.

An answer of a proof file may fail for its words alone. So a function that has such a file is tried again without it, as it
stands and with each edit. An edit that fails then too is refused by the contract: by a goal that the tactics prove of the
function as it stands, or by one for which that needs its answer. One that doesn't is refused by its answers alone, which
counts as let through.

With `--apart` each edit is tried by itself, as it stands and without the answers of the functions that it changes, by so many
workers, each with a copy of its own. That is for many edits of few functions, which would each wait for a check of their own.

A line is printed for each edit as soon as it is known by what it is refused, or that it isn't, and one for each crate; the
status is 1 where an edit was let through or doesn't fit its file. With `--gate` the edits in crates/*/must-fail are tried in
their place.

Tried are the crates that are named, or all: those that a change touched before it lands, and all of them where a
contract of sn_model, sn_device or sn_walk changed. It needs the command rt on the path, and takes less time where
`rt all check` was run before, since it takes over what that built.
"""

import argparse
import os
import re
import shutil
import subprocess
import sys
import tempfile
import time
from collections import Counter
from concurrent.futures import Future, ThreadPoolExecutor, as_completed
from pathlib import Path
from queue import SimpleQueue

TOP = Path(__file__).resolve().parent.parent
EDITS = TOP / "bench" / "wrong_bodies"
RT = str(TOP / ".ci" / "rt")
STATUS = re.compile(r"^(?:fn|impl|struct|enum|trait) ([\w:]+): (.*)$")
OPEN = re.compile(r"^fn ([\w:]+): no proof: .*did not prove (.*)$")
WAITING = re.compile(r"^(not proved; it (waits|calls)|not proved: it calls|no proof; it (waits|calls))")


class Edit:
    """One wrong body: a file of the crate, and the texts that it exchanges there."""

    def __init__(self, crate, path):
        self.crate, self.name, self.pairs = crate, path.stem, []
        for line in path.read_text().split("\n"):
            key, _, text = line.partition(":")
            text = text[1:]
            if key == "file":
                self.file = text
            elif key == "old":
                self.pairs.append((text, None))
            elif key == "new":
                self.pairs[-1] = (self.pairs[-1][0], text)

    def made_in(self, text):
        """The text with this edit made, or None where an old text doesn't stand there once."""
        for old, new in self.pairs:
            if text.count(old) != 1:
                return None
            text = text.replace(old, new)
        return text

    def functions(self, text):
        """The functions that it changes, each as the module, the name of its type or trait, and its name."""
        found = set()
        for old, _ in self.pairs:
            if text.count(old) == 1:
                found.add(function_at(self.file, text[: text.index(old)].split("\n")))
        return found


def function_at(file, lines):
    """The function that the last of some lines stands in; None for its name outside of functions."""
    module = re.sub(r"^src/|\.rt$", "", file).replace("/", "::")
    name = owner = None
    for line in reversed(lines):
        head = re.match(r"^(\s*)(?:pub(?:\([a-z]+\))? )?(?:final )?(?:const )?fn (\w+)", line)
        if name is None and head:
            name, depth = head.group(2), len(head.group(1))
            if depth == 0:
                break
        elif name is not None and re.match(r"^(impl|trait)\b", line):
            owner = re.sub(r"<[^<>]*>", "", re.sub(r"<[^<>]*>", "", line))
            break
        elif name is None and re.match(r"^}", line):
            break
    return module, owner, name


def statuses(output):
    """What the check said of each function: its own errors, or None where it is proved or waits for another."""
    said = {}
    for line in output.split("\n"):
        found = STATUS.match(line)
        if found:
            path, words = found.groups()
            proved = words == "proved" or bool(WAITING.match(words))
            said[path] = said.get(path, False) or not proved
    return said


def open_goals(output):
    """The goals of each function that no tactic proves, where it has no answers."""
    return {found[1]: set(re.findall(r"`([^`]+)`", found[2])) for found in map(OPEN.match, output.split("\n")) if found}


def is_owner(kind, owner):
    """Whether a type or a trait's impl of this name is that of the line that begins it."""
    words = re.findall(r"\w+", owner)
    return kind in words or any(kind.startswith(word) for word in words[1:])


def is_of(path, crate, function):
    """Whether a path that the check tells is that of a function."""
    module, owner, name = function
    # A type's functions are told with the module of the type, whatever module they are written in.
    inside = path.startswith(f"{crate}::{module}::" if module != "lib" and owner is None else f"{crate}::")
    if not inside or name not in (None, path.split("::")[-1]):
        return False
    return owner is None or is_owner(path.split("::")[-2], owner)


def is_refused(edit, functions, said):
    """Whether a function that the edit changes has an error of its own."""
    return any(wrong and is_of(path, edit.crate, it) for path, wrong in said.items() for it in functions)


def goals_of(edit, functions, goals):
    """The open goals of the functions that an edit changes."""
    return {goal for path, its in goals.items() for goal in its if any(is_of(path, edit.crate, it) for it in functions)}


def below(crate):
    """A crate and all that it stands on in this repository, each with its line of crates.txt."""
    lines = [line.partition("#")[0] for line in (TOP / "crates.txt").read_text().split("\n")]
    named = {line.split(":")[0].split()[0]: line for line in lines if ":" in line}
    found, left = {}, [crate]
    while left:
        name = left.pop()
        if name in named and name not in found:
            found[name] = named[name]
            left += named[name].partition(":")[2].split()
    return found


def linked(source, target):
    """A second name of a file, or a copy of it where there can be none."""
    try:
        os.link(source, target)
    except OSError:
        shutil.copy2(source, target)


class Copy:
    """A copy of a crate and of all that it stands on, whose libraries are taken as they were built, and with `keeps` what
    was proved of the crate."""

    def __init__(self, crate, folder, keeps=True):
        self.crate, self.top = crate, Path(folder)
        self.folder = self.top / "crates" / crate
        wanted = below(crate)
        (self.top / "crates.txt").write_text("".join(f"{line}\n" for line in wanted.values()))
        for name in wanted:
            source, target = TOP / "crates" / name, self.top / "crates" / name
            shutil.copytree(source, target, ignore=shutil.ignore_patterns("out", "must-fail", "data"))
            if (source / "out" / "rlib").is_dir():
                shutil.copytree(source / "out" / "rlib", target / "out" / "rlib", copy_function=linked)
        kept = TOP / "crates" / crate / "out" / "incremental"
        if keeps and kept.is_dir():
            shutil.copytree(kept, self.folder / "out" / "incremental")

    def source(self, edit):
        return (TOP / "crates" / self.crate / edit.file).read_text()

    def answers(self, edit):
        """The files of answers to the goals of the functions that an edit changes."""
        found = set()
        for module, owner, name in edit.functions(self.source(edit)):
            folder = self.folder / "proofs" / ("" if module == "lib" or owner else module.replace("::", "/"))
            for path in folder.rglob("Answers.antt"):
                *kind, last = path.relative_to(folder).parts[:-1]
                is_its = is_owner(kind[-1], owner) if owner and kind else not owner and not kind
                if is_its and last.lstrip("+") == name:
                    found.add(path.relative_to(self.folder))
        return found

    def check(self, edits, without=()):
        """What a check with these edits and without these files says of each function, and its whole output."""
        before = {file: (self.folder / file).read_text() for file in [edit.file for edit in edits] + list(without)}
        for edit in edits:
            path = self.folder / edit.file
            path.write_text(edit.made_in(path.read_text()))
        for file in without:
            (self.folder / file).unlink()
        run = subprocess.run([RT, "check"], cwd=self.folder, capture_output=True, text=True)
        for file, text in before.items():
            (self.folder / file).write_text(text)
        output = run.stdout + run.stderr
        return statuses(output), output


def batches(crate, edits):
    """Lists of edits of which no two change one function or spoil one another's text."""
    lists = []
    for edit in edits:
        for taken in lists:
            if fits(crate, taken, edit):
                taken.append(edit)
                break
        else:
            lists.append([edit])
    return lists


def fits(crate, taken, edit):
    source = (TOP / "crates" / crate / edit.file).read_text()
    mine = edit.functions(source)
    for other in taken:
        if other.file == edit.file:
            if mine & other.functions(source) or any(name is None for _, _, name in mine):
                return False
            source = other.made_in(source)
    return edit.made_in(source) is not None


def fitting(crate, folder):
    """The edits of a crate in a folder that fit their files, and a line for each that doesn't."""
    edits, said = [], []
    for path in sorted(folder.glob("*.edit")):
        edit = Edit(crate, path)
        source = TOP / "crates" / crate / edit.file
        if not source.is_file() or edit.made_in(source.read_text()) is None:
            said.append(f"{crate}/{edit.name}: doesn't fit {edit.file}")
        else:
            edits.append(edit)
    return edits, said


def try_together(copy, edits):
    """Tries edits of functions, many in one check; those of which that tells nothing."""
    left = []
    for batch in batches(copy.crate, edits):
        said, _ = copy.check(batch)
        for edit in batch:
            if not is_refused(edit, edit.functions(copy.source(edit)), said):
                left.append(edit)
    return left


def try_in_rounds(copy, edits):
    """Tries edits of functions together, those of which nothing was told again without the others, until a round tells
    nothing more; those that are left."""
    left = edits
    while len(left) > 1:
        untold = try_together(copy, left)
        if len(untold) == len(left):
            break
        left = untold
    return left


def try_alone(copy, edit):
    """Why an edit isn't refused where it is tried by itself, or None where it is."""
    said, output = copy.check([edit])
    if any(said.values()):
        return None
    return "let through" if "logic=proved" in output else "not judged: it may not compile"


BY_A_CONTRACT = "refused by its contract"
BY_AN_ANSWER = "refused by its contract, at goals that need an answer"
BY_ANSWERS = "let through but for its answers"


def judged(copy, edit, before, said, output):
    """By what an edit is refused without the answers of its functions, of which these goals are open before it is made;
    None where these only wait for others."""
    functions = edit.functions(copy.source(edit))
    if goals_of(edit, functions, open_goals(output)) - goals_of(edit, functions, before):
        return BY_A_CONTRACT
    if is_refused(edit, functions, said):
        return BY_AN_ANSWER
    return BY_ANSWERS if "logic=proved" in output else None


def judged_alone(copy, edit, before=None):
    """The same, with no other edit and no other answers taken away."""
    without = copy.answers(edit)
    if before is None:
        before = open_goals(copy.check([], without)[1])
    said, output = copy.check([edit], without)
    return judged(copy, edit, before, said, output) or (BY_AN_ANSWER if any(said.values()) else "not judged without its answers")


def judged_by_answers(copy, edits):
    """Each of these edits, which are refused, and by what."""
    answered = [edit for edit in edits if copy.answers(edit)]
    yield from ((edit, BY_A_CONTRACT) for edit in edits if edit not in answered)
    without = set().union(*map(copy.answers, answered))
    before = open_goals(copy.check([], without)[1]) if answered else {}
    for batch in batches(copy.crate, answered):
        said, output = copy.check(batch, without)
        for edit in batch:
            known = goals_of(edit, edit.functions(copy.source(edit)), before)
            verdict = judged(copy, edit, before, said, output) if known else None
            yield edit, verdict or judged_alone(copy, edit)


def judged_together(crate, edits):
    """Each edit and by what it is refused, or why it isn't; many are tried in one check."""
    with tempfile.TemporaryDirectory() as folder:
        copy = Copy(crate, folder)
        alone = [edit for edit in edits if not edit.file.startswith("src/")]
        alone += try_in_rounds(copy, [edit for edit in edits if edit not in alone])
        refused = [edit for edit in edits if edit not in alone]
        for edit in alone:
            reason = try_alone(copy, edit)
            if reason:
                yield edit, reason
            else:
                refused.append(edit)
        yield from judged_by_answers(copy, refused)


class Workers:
    """So many copies of a crate, each of which one worker at a time has."""

    def __init__(self, crate, folder, count):
        self.copies, self.pool = SimpleQueue(), ThreadPoolExecutor(count)
        for worker in range(count):
            place = Path(folder) / str(worker)
            place.mkdir()
            self.copies.put(Copy(crate, place))

    def start(self, work, *given):
        """Begins work that is given a copy."""
        return self.pool.submit(self.with_copy, work, *given)

    def with_copy(self, work, *given):
        copy = self.copies.get()
        try:
            return work(copy, *given)
        finally:
            self.copies.put(copy)


def judged_apart(crate, edits, count):
    """The same with each edit tried by itself, so many at a time."""
    with tempfile.TemporaryDirectory() as folder:
        workers = Workers(crate, folder, count)
        answers = {edit.name: frozenset(workers.with_copy(Copy.answers, edit)) for edit in edits}
        begun = {without: workers.start(Copy.check, [], without) for without in {*answers.values()} if without}
        before = {without: open_goals(ran.result()[1]) for without, ran in begun.items()}

        def judge(copy, edit):
            known = before.get(answers[edit.name])
            return edit, try_alone(copy, edit) or (BY_A_CONTRACT if known is None else judged_alone(copy, edit, known))

        yield from map(Future.result, as_completed([workers.start(judge, edit) for edit in edits]))


def try_crate(crate, words):
    """Tries the edits of a crate, and prints what came of them; the number of those that are let through or don't fit."""
    begun = time.time()
    place = TOP / "crates" / crate / "must-fail" if words.gate else EDITS / crate
    edits, lines = fitting(crate, place)
    print("".join(f"{line}\n" for line in lines), end="", flush=True)
    verdicts = Counter()
    for edit, verdict in judged_apart(crate, edits, words.apart) if words.apart else judged_together(crate, edits):
        print(f"{crate}/{edit.name}: {verdict}", flush=True)
        verdicts[verdict] += 1
    refused = sum(count for verdict, count in verdicts.items() if verdict.startswith("refused"))
    bad = len(edits) + len(lines) - refused
    print(f"{crate}: {refused} refused, {bad} not ({verdicts[BY_AN_ANSWER]} at goals that need an answer, {time.time() - begun:.0f} s)", flush=True)
    return bad


def main():
    asked = argparse.ArgumentParser(description="Tries wrong bodies, which the prover has to refuse.")
    asked.add_argument("--jobs", type=int, default=1, help="how many crates at a time, of some 2 GB each")
    asked.add_argument("--gate", action="store_true", help="those that the gate tries")
    asked.add_argument("--apart", type=int, metavar="WORKERS", help="tries each by itself, so many at a time of some 2 GB each")
    asked.add_argument("crates", nargs="*", help="which crates; all, where none is named")
    words = asked.parse_args()
    with_edits = (TOP / "crates").glob("*/must-fail") if words.gate else EDITS.glob("*/*.edit")
    crates = words.crates or sorted({path.parent.name for path in with_edits})
    with ThreadPoolExecutor(words.jobs) as pool:
        bad = sum(pool.map(lambda crate: try_crate(crate, words), crates))
    print(f"{bad} not refused in all")
    sys.exit(1 if bad else 0)


if __name__ == "__main__":
    main()
