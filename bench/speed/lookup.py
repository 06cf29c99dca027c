#!/usr/bin/env python3
"""Tells what large directories cost beside small ones: look-ups, names that are made, and a consistency point.

    bench/speed/lookup.py [--program PROGRAM] [--rounds N] [--asked N] [stat | mkdir | point ..]

Run by hand: builds the program where it isn't up to date, or takes the one that is named. Images are written by `made_image.py`,
so by docs/FORMAT.md alone, into memory where the system has a folder for that. Told are ratios of times within this run, each the
least of N rounds (5), without that of a run that doesn't make the calls that are timed, but all that stands before them:

- `stat`: one, the mean of so many as are asked for (2,000), among 65,535 names beside one among 100, of 8 and of 255 bytes, where a
  name is there and where it isn't. The
  directory was gone through before. And the blocks that all these look-ups read of the image, and the time of the first one.
- `mkdir`: 30,000 in one directory beside as many in directories of 50.
- `point`: 100 renames among 65,535 names, spread over all its blocks, with the consistency point that a run ends with, beside 100
  among 100 names; and the blocks that either writes.
- `refused`: no ratio. Each allocation is refused in turn of a run of look-ups and changes in a directory of 40 blocks, each of which
  is asked twice. At most one reply may be `err ENOMEM`, the same call made again is answered as without the refusal, and so are
  all others; or the run ends for want of memory. Wants gcc. The status is 1 where anything was otherwise.
"""

import argparse
import os
import subprocess
import sys
import tempfile
import time
from pathlib import Path

sys.dont_write_bytecode = True
sys.path += [str(Path(__file__).resolve().parents[1] / name) for name in ("hostile", "plain")]

from hostile import REFUSE  # noqa: E402
from made_image import Tree, write_image  # noqa: E402

TOP = Path(__file__).resolve().parents[2]
MEMORY = Path("/dev/shm")
MANY, FEW = 65_535, 100
LENGTHS = (8, 255)
BLOCKS, MKDIR_BLOCKS = 32_768, 65_536
RENAMED = 100
MADE, SMALL = 30_000, 50
LINKS = 32_767
LOGIN = "0 login 0 0 -"
BLOCK = 4096


def names_of(count, length):
    return [f"{number:05}".ljust(length, "n") for number in range(count)]


def missing(number, length):
    """A name as long as the others, which isn't there."""
    return f"{number:05}".ljust(length, "o")


def tree_of(names):
    """A directory with these names, each of a file that has as many names as there may be."""
    tree = Tree()
    directory = tree.add_directory(2, "d")
    for at, name in enumerate(names):
        if at % LINKS == 0:
            file = tree.add_file(directory, name, b"")
        else:
            tree.add_link(directory, name, file)
    return tree


def spread(names, count):
    """So many of the names, over all of them, and each as often where there are fewer."""
    return [names[at * len(names) // count] for at in range(count)] if len(names) >= count else (names * count)[:count]


class Run:
    """What a run took: milliseconds, reads of the image, and bytes written to it."""

    def __init__(self, taken, reads, written):
        self.taken, self.reads, self.written = taken, reads, written

    def beside(self, other):
        """What it took more than another."""
        return Run(max(self.taken - other.taken, 1e-3), self.reads - other.reads, self.written - other.written)


class Bench:
    """A program, and a folder for its images."""

    def __init__(self, program, rounds, asked, work):
        self.program, self.rounds, self.asked, self.work = program, rounds, asked, Path(work)

    def image(self, names):
        path = self.work / "whole"
        write_image(path, tree_of(names), BLOCKS)
        return path

    def once(self, image, lines):
        """A run of these lines on a copy of an image."""
        copy, script = self.work / "copy", self.work / "script.snap"
        subprocess.run(["cp", "--sparse=always", image, copy], check=True)
        script.write_text("".join(f"{line}\n" for line in lines))
        begun = time.perf_counter()
        run = subprocess.Popen([self.program, "run", copy, script], stdout=subprocess.DEVNULL)
        os.waitid(os.P_PID, run.pid, os.WEXITED | os.WNOWAIT)
        taken = time.perf_counter() - begun
        counts = dict(line.split(": ") for line in Path(f"/proc/{run.pid}/io").read_text().splitlines())
        if run.wait() != 0:
            sys.exit("a run failed")
        replies = sum(1 for _ in lines)  # Each is told on a line; what is told isn't written to the image.
        return Run(1000 * taken, int(counts["syscr"]), int(counts["wchar"]) - replies)

    def least(self, image, *scripts):
        """The least times of runs of some scripts, which take turns."""
        found = [[self.once(image, lines) for lines in scripts] for _ in range(self.rounds)]
        return [Run(min(run.taken for run in runs), runs[-1].reads, runs[-1].written) for runs in zip(*found)]


def stat(bench):
    for length in LENGTHS:
        told = {}
        for count in (MANY, FEW):
            names = names_of(count, length)
            image = bench.image(names)
            gone = [LOGIN, f"0 stat /d/{missing(count, length)}"]
            hits = [f"0 stat /d/{name}" for name in spread(names, bench.asked)]
            misses = [f"0 stat /d/{missing(number, length)}" for number in range(bench.asked)]
            none, first, hit, miss = bench.least(image, [LOGIN], gone, gone + hits, gone + misses)
            told[count] = [hit.beside(first), miss.beside(first), first.beside(none)]
        for what, many, few in zip(("a name that is there", "one that isn't"), told[MANY], told[FEW]):
            taken, small = many.taken / bench.asked, few.taken / bench.asked
            print(f"{what}, of {length} bytes, among {MANY:,}: {taken / small:.1f} of one among {FEW} ({1000 * taken:.1f} us, {1000 * small:.1f} us), {many.reads} blocks read for {bench.asked:,}")
        first = told[MANY][2]
        print(f"the first look-up, of {length} bytes, among {MANY:,}: {first.taken:.1f} ms, {first.reads} blocks read")


def mkdir(bench):
    image = bench.work / "whole"
    subprocess.run([bench.program, "mkfs", image, str(MKDIR_BLOCKS)], check=True, stdout=subprocess.DEVNULL)
    one = [f"0 mkdir /{number:05} 0755" for number in range(MADE)]
    small = []
    for number in range(MADE):
        parent, place = divmod(number, SMALL + 1)
        small.append(f"0 mkdir /{parent:05} 0755" if place == 0 else f"0 mkdir /{parent:05}/{place:05} 0755")
    none, large, directories = bench.least(image, [LOGIN], [LOGIN, *one], [LOGIN, *small])
    large, directories = large.beside(none).taken, directories.beside(none).taken
    print(f"{MADE:,} mkdir in one directory: {large / directories:.2f} of as many in directories of {SMALL} ({large / 1000:.2f} s, {directories / 1000:.2f} s)")


def point(bench):
    for length in LENGTHS:
        told = []
        for count in (MANY, FEW):
            names = names_of(count, length)
            image = bench.image(names)
            gone = [LOGIN, f"0 stat /d/{missing(count, length)}", "0 sync"]
            changes = [f"0 rename /d/{name} /d/{name[:-1]}p" for name in spread(names, RENAMED)]
            none, changed = bench.least(image, gone, [*gone, *changes, "0 sync"])
            told.append(changed.beside(none))
        many, few = told
        print(
            f"{RENAMED} renames and a point, of {length} bytes, among {MANY:,}: {many.taken:.1f} ms, {many.written // BLOCK} blocks written;"
            f" among {FEW}: {few.taken:.1f} ms, {few.written // BLOCK} blocks written"
        )


# ---- refused memory

FORTY = 600
# What is told of a run that ends for want of memory.
ENDS = ("snapfs: memory", "snapfs: M5", "snapfs: file", "snapfs: stopped")


def asked_twice(names):
    """Look-ups and changes of names, and a point between, each with itself behind it."""
    length = len(names[0])
    calls = [f"0 stat /d/{name}" for name in spread(names, 4)]
    calls += [f"0 stat /d/{missing(0, length)}", f"0 link /d/{names[0]} /d/{missing(1, length)}", f"0 unlink /d/{names[300]}", "0 sync"]
    calls += [f"0 stat /d/{missing(1, length)}", f"0 stat /d/{names[300]}", f"0 stat /d/{names[-1]}"]
    return [call for call in calls for _ in range(2)]


def is_right(told, wanted, end):
    """Whether replies are those that are wanted, but for one that memory was refused for and the one behind it; or a front of them."""
    if len(told) < len(wanted) and end not in ENDS:
        return False
    other = [at for at, (one, two) in enumerate(zip(told, wanted)) if one != two]
    if not other:
        return True
    first = other[0]
    again = first + 1 == len(told) or first % 2 == 0 or told[first + 1] == wanted[first]
    return told[first] == "err ENOMEM" and again and all(at <= first + 1 for at in other)


def refused(bench):
    work, names = bench.work, names_of(FORTY, 255)
    (work / "refuse.c").write_text(REFUSE)
    subprocess.run(["gcc", "-O2", "-shared", "-fPIC", "-o", work / "refuse.so", work / "refuse.c", "-ldl"], check=True)
    image, lines, mark = bench.image(names), [LOGIN, *asked_twice(names)], work / "mark"
    (work / "script.snap").write_text("".join(f"{line}\n" for line in lines))

    def run(at):
        subprocess.run(["cp", "--sparse=always", image, work / "copy"], check=True)
        mark.unlink(missing_ok=True)
        given = {"LD_PRELOAD": str(work / "refuse.so"), "REFUSED": str(at), "REFUSED_MARK": str(mark)}
        ended = subprocess.run([bench.program, "run", work / "copy", work / "script.snap"], capture_output=True, text=True, env=given)
        return ended.stdout.splitlines(), ended.stderr.strip(), mark.exists()

    wanted, _, _ = run(0)
    count = told_twice = wrong = 0
    for at in range(1, 100_000):
        told, end, was_refused = run(at)
        if not was_refused:
            break
        count += 1
        told_twice += "err ENOMEM" in told
        if not is_right(told, wanted, end):
            wrong += 1
            print(f"allocation {at}: {end}: {told}")
    print(f"{count} allocations refused of look-ups and changes in a directory of 40 blocks, {told_twice} told by a call, {wrong} wrong")
    return wrong == 0


SUBJECTS = {"stat": stat, "mkdir": mkdir, "point": point, "refused": refused}


def main():
    parser = argparse.ArgumentParser(description=__doc__, formatter_class=argparse.RawDescriptionHelpFormatter)
    parser.add_argument("--program", type=Path)
    parser.add_argument("--rounds", type=int, default=5)
    parser.add_argument("--asked", type=int, default=2_000)
    parser.add_argument("subjects", nargs="*", metavar="stat | mkdir | point | refused")
    words = parser.parse_args()
    program = words.program
    if program is None:
        subprocess.run([TOP / "snapfs", "--build"], check=True)
        program = TOP / "crates/sn_bin/out/sn_bin"
    with tempfile.TemporaryDirectory(dir=MEMORY if MEMORY.is_dir() else None) as work:
        bench = Bench(program.resolve(), words.rounds, words.asked, work)
        told = [SUBJECTS[subject](bench) for subject in words.subjects or SUBJECTS]
    sys.exit(1 if False in told else 0)


if __name__ == "__main__":
    main()
