#!/usr/bin/env python3
"""Proves and builds a program that only a person runs, which the gate leaves out, and runs it.

    bench/speed/program.py NAME [WORD..]

bench/speed/programs/NAME has its files, each with `.txt` behind its name, since rt refuses a .rt file of no crate, and in
`libraries` the words of its line of crates.txt. It is made a crate of a copy of the repository, whose libraries are
taken as they were built. The program is left as bench/speed/out/NAME, beside what was proved of it, which the next call takes
over; with words it is run on these.
"""

import os
import shutil
import subprocess
import sys
import tempfile
from pathlib import Path

sys.dont_write_bytecode = True
sys.path.append(str(Path(__file__).resolve().parents[1]))

from wrong_bodies import RT, TOP, below, linked  # noqa: E402

OUT = TOP / "bench" / "speed" / "out"


def copy_of(name, words, folder):
    """A repository in a folder, of the libraries of a program and of the program as a crate; that crate's folder."""
    wanted = {}
    for word in words:
        wanted.update(below(word))
    for library in wanted:
        source, target = TOP / "crates" / library, folder / "crates" / library
        shutil.copytree(source, target, ignore=shutil.ignore_patterns("out", "must-fail", "data"))
        if (source / "out" / "rlib").is_dir():
            shutil.copytree(source / "out" / "rlib", target / "out" / "rlib", copy_function=linked)
    wanted[name] = f"{name}: {' '.join(words)}"
    (folder / "crates.txt").write_text("".join(f"{line}\n" for line in wanted.values()))
    crate = folder / "crates" / name
    (crate / "src").mkdir(parents=True)
    for path in (TOP / "bench" / "speed" / "programs" / name).glob("*.rt.txt"):
        shutil.copy2(path, crate / "src" / path.stem)
    return crate


def built(name):
    """Builds a program, and says where it lies, or prints what was said where it isn't proved."""
    words = (TOP / "bench" / "speed" / "programs" / name / "libraries").read_text().split()
    kept, program = OUT / f"{name}.kept", OUT / name
    with tempfile.TemporaryDirectory() as temporary:
        crate = copy_of(name, words, Path(temporary))
        if kept.is_dir():
            shutil.copytree(kept, crate / "out" / "incremental")
        # It ends at once, since it wants a word.
        run = subprocess.run([RT, "run"], cwd=crate, capture_output=True, text=True)
        shutil.rmtree(kept, ignore_errors=True)
        if (crate / "out" / "incremental").is_dir():
            shutil.copytree(crate / "out" / "incremental", kept)
        if not (crate / "out" / name).is_file():
            sys.exit((run.stdout + run.stderr)[-4000:])
        shutil.copy2(crate / "out" / name, program)
    return program


def main():
    name, words = sys.argv[1], sys.argv[2:]
    OUT.mkdir(exist_ok=True)
    program = built(name)
    if words:
        os.execv(program, [program, *words])


if __name__ == "__main__":
    main()
