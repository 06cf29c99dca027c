#!/usr/bin/env python3
"""Runs the gate once, and prints what it cost crate by crate, in processor minutes.

    bench/gate.py [FILE]

The gate is `rt ci` at the top of the repository; what it prints goes to FILE, or else to standard error. Run it with
nothing beside it. The figures come from looking at the gate's processes some times a second, so a crate's are a little
less than the whole, whose processor time the system counts: what is left over stands in the line `other`.
On a virtual machine whose host is busy the same check takes two to four times the processor time. The last two lines tell it:
the share of time that the host took away, and how much longer than at its fastest the same loop took in the mean, which is timed
now and then while the gate runs. Others on the host slow that down too, by its memory and caches, where no time is taken away.
Compare runs only where both are small.
The status is that of the gate.
"""

import os
import random
import re
import resource
import subprocess
import sys
import time
from collections import defaultdict
from pathlib import Path

TOP = Path(__file__).resolve().parent.parent
TICKS = os.sysconf("SC_CLK_TCK")
PERIOD = 0.2
# The loop that is timed goes through a list of so many places, so many steps, each this many seconds.
PLACES, STEPS, PAUSE = 1_000_000, 200_000, 20
KINDS = ("proof and build", "tests", "wrong bodies")


def stat_of(pid):
    """A process's parent, when it began, and the processor seconds that it has had itself."""
    words = Path(f"/proc/{pid}/stat").read_text().rpartition(")")[2].split()
    return int(words[1]), int(words[19]), (int(words[11]) + int(words[12])) / TICKS


def work_of(pid):
    """The crate and the kind of work of a process of the prover or the compiler, or None."""
    words = Path(f"/proc/{pid}/cmdline").read_bytes().decode(errors="replace").split("\0")
    text = " ".join(words)
    named = re.search(r"--crate-name (\w+)", text) or re.search(r"/crates/(\w+)/", text)
    if not named:
        return None
    folder = os.readlink(f"/proc/{pid}/cwd")
    if "/rt-edit-" in folder:
        return named[1], "wrong bodies"
    return named[1], "tests" if "--test" in words else "proof and build"


def look(top, seen):
    """Notes the processor time of each process below one."""
    found = {}
    for name in os.listdir("/proc"):
        if name.isdigit():
            # (a process may end while it is looked at)
            try:
                found[int(name)] = stat_of(name)
            except (OSError, ValueError, IndexError):
                pass
    inside = {top}
    for pid in sorted(found, key=lambda it: found[it][1]):
        if found[pid][0] in inside:
            inside.add(pid)
            try:
                work = work_of(pid)
            except OSError:
                continue
            if work:
                seen[pid, found[pid][1]] = work, found[pid][2]


def ticks():
    """All ticks of the machine so far, and those that its host took away."""
    words = [int(it) for it in Path("/proc/stat").read_text().split("\n")[0].split()[1:9]]
    return sum(words), words[7]


class Loop:
    """A way through a list that no cache of a core has room for, and how long it took each time."""

    def __init__(self):
        order = list(range(PLACES))
        random.Random(1).shuffle(order)
        self.following, self.at, self.times, self.due = [0] * PLACES, 0, [], 0
        for place, other in zip(order, order[1:] + order[:1]):
            self.following[place] = other

    def turn(self):
        """Takes the next steps, if they are due."""
        if time.time() < self.due:
            return
        begun, at = time.thread_time(), self.at
        for _ in range(STEPS):
            at = self.following[at]
        self.times.append(time.thread_time() - begun)
        self.at, self.due = at, time.time() + PAUSE

    def slowness(self):
        """How many times as long as the fastest steps these took in the mean."""
        return sum(self.times) / len(self.times) / min(self.times)


def report(seen, wall):
    """Prints a line for each crate, dearest first, and the whole."""
    costs = defaultdict(lambda: defaultdict(float))
    for (crate, kind), seconds in seen.values():
        costs[crate][kind] += seconds / 60
    usage = resource.getrusage(resource.RUSAGE_CHILDREN)
    whole = (usage.ru_utime + usage.ru_stime) / 60
    print(f"{'crate':20}" + "".join(f"{kind:>17}" for kind in KINDS) + f"{'all':>8}")
    for crate in sorted(costs, key=lambda it: -sum(costs[it].values())):
        parts = [costs[crate][kind] for kind in KINDS]
        print(f"{crate:20}" + "".join(f"{part:17.1f}" for part in parts) + f"{sum(parts):8.1f}")
    known = sum(sum(kinds.values()) for kinds in costs.values())
    print(f"{'other':20}{'':51}{max(whole - known, 0):8.1f}")
    print(f"{whole:.0f} processor minutes in {wall / 60:.0f} minutes")


def main():
    out = open(sys.argv[1], "w") if len(sys.argv) > 1 else sys.stderr
    before, stolen_before = ticks()
    begun, seen, loop = time.time(), {}, Loop()
    gate = subprocess.Popen([str(TOP / ".ci" / "rt"), "ci"], cwd=TOP, stdout=out, stderr=subprocess.STDOUT)
    while gate.poll() is None:
        look(gate.pid, seen)
        loop.turn()
        time.sleep(PERIOD)
    report(seen, time.time() - begun)
    after, stolen = ticks()
    print(f"{100 * (stolen - stolen_before) / max(after - before, 1):.0f}% of the time was taken away by the host")
    print(f"the same loop took {loop.slowness():.2f} times as long in the mean as at its fastest")
    sys.exit(gate.returncode)


if __name__ == "__main__":
    main()
