#!/usr/bin/env python3
"""Proves a crate from nothing, as the gate does, and prints what its functions cost, dearest first, in processor seconds.

    bench/proofs.py CRATE [COUNT]

Each function has what was spent since the end of the one before it: the first one has the reading of the libraries too, and one
that is the first to use a type of another crate has what the check makes of that. COUNT is how many are printed, 25 where it is
left out. The libraries below the crate are taken as an earlier `rt check` or `rt lib` built them. What `rt check` shows for a crate of
over 300 lines differs: it proves such a crate in batches, each of which begins anew. Other work on the machine makes the figures
greater, by half and more.
"""

import importlib.machinery
import importlib.util
import os
import re
import shutil
import subprocess
import sys
from pathlib import Path

sys.dont_write_bytecode = True

from gate import TICKS, TOP  # noqa: E402

CHECKED = re.compile(r"^checked (.*), \d+ of \d+$")


def faster_rt(top):
    """What .ci/rt has, as a module."""
    loader = importlib.machinery.SourceFileLoader("faster_rt", str(top / ".ci" / "rt"))
    faster = importlib.util.module_from_spec(importlib.util.spec_from_loader("faster_rt", loader))
    loader.exec_module(faster)
    return faster


def rt_of(top):
    """The command rt as a module, as .ci/rt has it."""
    faster = faster_rt(top)
    rt = faster.loaded(os.path.realpath(shutil.which("rt") or sys.exit("rt isn't on the PATH")))
    rt.rtlib.Crate.stamp = faster.summed_once(rt.rtlib.Crate.stamp)
    rt.rtlib.Crate.below = faster.gone_through_once(rt.rtlib.Crate.below)
    return rt


def command_of(top, name):
    """The command that proves a crate, with one job, and the folder where it runs."""
    rt = rt_of(top)
    crate = next((it for it in rt.crates_of(str(top)) if it.name == name), None) or sys.exit(f"no crate {name}")
    missing = [it.name for it in crate.below() if not os.path.isdir(it.rlib)]
    if missing:
        sys.exit(f"not built yet, run .ci/rt all check: {' '.join(missing)}")
    words = crate.words(["--jobs", "1"], keeps=False)
    return [rt.rtlib.RATTLE, "check", *words, "--progress"], crate.folder


def spent_by(pid):
    """The processor seconds of a process and of those below it that have ended."""
    words = Path(f"/proc/{pid}/stat").read_text().rpartition(")")[2].split()
    return sum(int(it) for it in words[11:15]) / TICKS


def main():
    name, count = sys.argv[1], int(sys.argv[2]) if len(sys.argv) > 2 else 25
    command, folder = command_of(TOP, name)
    costs, last, verdict = [], 0, ""
    run = subprocess.Popen(command, cwd=folder, stdout=subprocess.PIPE, stderr=subprocess.STDOUT, text=True)
    for line in run.stdout:
        found = CHECKED.match(line)
        if found:
            now = spent_by(run.pid)
            costs.append((now - last, found[1]))
            last = now
        verdict = line.strip()
    status = run.wait()
    for seconds, function in sorted(costs, reverse=True)[:count]:
        print(f"{seconds:7.1f} {function}")
    print(f"{last:7.1f} in all, {len(costs)} functions: {verdict}")
    sys.exit(status)


if __name__ == "__main__":
    main()
