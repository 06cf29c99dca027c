#!/usr/bin/env python3
"""Plants wrong bodies in a crate, as `rt plant` does, and lists those that its contracts let through.

    bench/plant.py CRATE [--slow N] [--only WORD] [--max N] [--minutes N] [--all]

`rt plant` takes a sum of the files below a crate for each way that leads down to them, which takes hours for one that stands
high. Here each file is read once for a sum, as .ci/rt has it; all else is what rt does. Run by hand, over built libraries.
"""

import importlib.machinery
import importlib.util
import os
import shutil
import sys

sys.dont_write_bytecode = True

from gate import TOP  # noqa: E402
from proofs import faster_rt  # noqa: E402


def main():
    command = os.path.realpath(shutil.which("rt") or sys.exit("rt isn't on the PATH"))
    loader = importlib.machinery.SourceFileLoader("rt_plant", f"{os.path.dirname(command)}/rt-plant")
    plant = importlib.util.module_from_spec(importlib.util.spec_from_loader("rt_plant", loader))
    loader.exec_module(plant)
    faster, crate = faster_rt(TOP), plant.rt.Crate
    crate.stamp = faster.summed_once(crate.stamp)
    crate.below = faster.gone_through_once(crate.below)
    name, *words = sys.argv[1:]
    if "--slow" in words:
        at = words.index("--slow")
        plant.SECONDS *= int(words[at + 1])
        del words[at : at + 2]
    os.chdir(TOP / "crates" / name)
    sys.exit(plant.main(*words))


if __name__ == "__main__":
    main()
