#!/usr/bin/env python3
"""Proves libraries side by side, and keeps what it made by what that was made of.

    .ci/libraries.py [--give] [NAME..]

For each NAME (all, where none is given) and those below it: what was made of the same files, in whatever checkout, is taken from
~/.cache/snapfs/libraries, and what isn't there is proved, the one with the longest way above it first, LANES (4) at a time, and kept.
With --give nothing is proved. `rt check` in a crate's folder then starts at once. It prints a line for each library that was
proved, and what the prover said of it is in out/libraries.log of its folder. The status is 1 where one isn't there in the end.

It is for a toolchain whose `rt ci` keeps nothing, where a crate can't be checked before all below it was proved anew. It is no
gate: that proves everything from nothing.
"""

import importlib.machinery
import importlib.util
import os
import shutil
import subprocess
import sys
import time
from concurrent.futures import FIRST_COMPLETED, ThreadPoolExecutor, wait
from pathlib import Path

sys.dont_write_bytecode = True
TOP = Path(__file__).resolve().parent.parent
KEPT = Path.home() / ".cache/snapfs/libraries"


def module(path, name):
    """A script as a module, without what it does when it is called."""
    loader = importlib.machinery.SourceFileLoader(name, str(path))
    made = importlib.util.module_from_spec(importlib.util.spec_from_loader(name, loader))
    sys.modules[name] = made
    loader.exec_module(made)
    return made


def crates_here():
    """The crates of this checkout by their names, each library with its statements alone, as the gate makes it."""
    wrapper = module(TOP / ".ci/rt", "wrapper")
    rt = module(os.path.realpath(shutil.which("rt")), "rt_command")
    base = rt.rtlib.Crate
    base.stamp = wrapper.summed_once(base.stamp)
    base.below = wrapper.gone_through_once(base.below)
    rt.rtlib.guarded()
    rt.Crate.allowed = rt.handles_of(str(TOP))
    rt.Crate.cuts_libraries = True
    known, found = {}, {}
    for line in (TOP / "crates.txt").read_text().splitlines():
        name = line.partition("#")[0].partition(":")[0].strip()
        if name:
            folder = str(TOP / "crates" / name)
            found[name] = known.setdefault(folder, None) or rt.Crate(folder, str(TOP), known)
            known[folder] = found[name]
    return found


class Store:
    """What was made of libraries, each under the sum of its files and of those below it."""

    def __init__(self, crates):
        self.sums = {it.name: it.stamp() for it in crates}

    def place(self, crate):
        return KEPT / crate.name / self.sums[crate.name]

    def give(self, crate):
        """Whether the library is built, or could be given."""
        if crate.is_built():
            return True
        kept, to = self.place(crate), Path(crate.rlib)
        if not (kept / "stamp").is_file():
            return False
        shutil.rmtree(to.parent, ignore_errors=True)
        to.parent.mkdir(parents=True)
        subprocess.run(["cp", "-al", kept / to.name, to], check=True)
        (to.parent / "stamp").write_text(self.sums[crate.name])
        return True

    def keep(self, crate):
        """Keeps a library that was proved of the files that its sum is of."""
        if crate.stamp() != self.sums[crate.name]:
            return
        kept, made = self.place(crate), Path(crate.rlib)
        (made.parent / "stamp").write_text(self.sums[crate.name])
        shutil.rmtree(kept, ignore_errors=True)
        kept.mkdir(parents=True)
        subprocess.run(["cp", "-al", made, kept / made.name], check=True)
        (kept / "stamp").write_text(self.sums[crate.name])

    def prove(self, crate, jobs):
        """Proves a library, and returns whether it could."""
        if self.give(crate):
            return True
        begun = time.time()
        os.makedirs(f"{crate.folder}/out", exist_ok=True)
        with open(f"{crate.folder}/out/libraries.log", "w+", errors="replace") as crate.out:
            proved = not crate.build_rlib(["--jobs", str(jobs)], True)
        if proved:
            self.keep(crate)
        print(f"{crate.name}: {'proved' if proved else 'NOT PROVED'}, {time.time() - begun:.0f} s", flush=True)
        return proved


def work_above(crates):
    """For each library the lines of the longest way from it up."""
    above = {}
    for crate in reversed(crates):
        above[crate.name] = crate.count(rb"\n") + above.get(crate.name, 0)
        for below in crate.deps:
            above[below.name] = max(above.get(below.name, 0), above[crate.name])
    return above


def prove_all(store, crates, there):
    """Proves the libraries that aren't there, each after those below it, and returns the names of all that are there then."""
    above, lanes = work_above(crates), int(os.environ.get("LANES", "4"))
    left, running = [it for it in crates if it.name not in there], {}
    with ThreadPoolExecutor(lanes) as pool:
        while left or running:
            ready = [it for it in left if all(below.name in there for below in it.below())]
            ready.sort(key=lambda it: -above[it.name])
            for crate in ready[: lanes - len(running)]:
                left.remove(crate)
                running[pool.submit(store.prove, crate, max(1, lanes // max(len(ready), 1)))] = crate
            if not running:
                break
            for run in wait(running, return_when=FIRST_COMPLETED).done:
                crate = running.pop(run)
                if run.result():
                    there.add(crate.name)
    return there


def main(words):
    names = [it for it in words if it != "--give"]
    os.chdir(TOP)
    known = crates_here()
    wanted = {it.name for name in names or known for it in (known[name], *known[name].below())}
    crates = sorted((known[it] for it in wanted if not known[it].is_program), key=lambda it: len(it.below()))
    store, there = Store(crates), set()
    for crate in crates:
        if all(it.name in there for it in crate.below()) and store.give(crate):
            there.add(crate.name)
    print(f"there: {len(there)} of {len(crates)} libraries", flush=True)
    if "--give" not in words:
        there = prove_all(store, crates, there)
    return int(len(there) < len(crates))


if __name__ == "__main__":
    sys.exit(main(sys.argv[1:]))
