#!/usr/bin/env python3
"""Lets many consistency points of drawn disks crash, or plants faults in them and sees each found.

    bench/crashes/points.py [COUNT]            runs the part `points` of sn_tests on so many points, 10,000 where it isn't given
    bench/crashes/points.py --faults [COUNT]   plants each fault below in a copy of the code, and runs it on so many points, 20

Run by hand. The program has to be built: `../../.ci/rt run -- data points 1` in crates/sn_tests. A copy with a fault can't be proved, so it is run by
`rt try`, which is slow: half an hour for all of them. Some show in few points alone: that a closed gate is closed again
only where a whole body stands behind it, one point in five. A fault is found where the program says that a crash or a
step went wrong, or where it ends with an error. The status is 1 where a crash of the code as it stands went wrong, or
where a fault wasn't found.
"""

import re
import shutil
import subprocess
import sys
import tempfile
from pathlib import Path

sys.dont_write_bytecode = True
sys.path.append(str(Path(__file__).resolve().parents[1]))

from wrong_bodies import TOP, below  # noqa: E402

NAME = "sn_tests"
PROGRAM = TOP / "crates" / NAME / "out" / NAME
STEPS, POINT = "sn_cp/src/steps.rt", "sn_cp/src/point.rt"
CLEARED = "8 * u64::from(self.geometry.range(Area::Log(sn_layout::LogHalf::of_epoch(self.next.epoch))).start)"
FAULTS = {
    "a block is written where a root reaches it": [
        (STEPS, "        blocks.write_block(block.number, &block.bytes)\n",
         "        let reached = self.next.inode_file.pointers.as_slice()[0];\n"
         "        blocks.write_block(if k == 0 { reached } else { block.number }, &block.bytes)\n")],
    "a block is written one too low": [
        (STEPS, "        blocks.write_block(block.number, &block.bytes)\n",
         "        blocks.write_block(block.number - 1, &block.bytes)\n")],
    "the gate is opened before the body's sync": [
        (STEPS, "        write_body(blocks, self.slot, &self.next)\n",
         "        let mut block = [0; BLOCK_SIZE];\n        self.next.encode(&mut block);\n"
         "        blocks.write_block(self.geometry.range(Area::RootBody(self.slot)).start, &block)\n")],
    "the map's last block isn't synced": [(STEPS, "        blocks.sync()\n", "        Ok(())\n")],
    "a step clears the half of the next epoch again": [
        (STEPS, "        write_body(blocks, self.slot, &self.next)\n",
         f"        blocks.write_sector({CLEARED}, &[0; 512])?;\n        write_body(blocks, self.slot, &self.next)\n")],
    "done before the gate's sync": [
        (STEPS, "        open_slot(blocks, self.slot)\n",
         "        blocks.write_sector(sn_layout::Geometry::gate(self.slot), &[1; 512])\n")],
    "a step without a write": [
        (POINT, "                Gate::Closed => Stage::Shut,\n", "                Gate::Closed => Stage::Stored,\n")],
    "a closed gate is closed again": [
        (POINT, "                Gate::Closed => Stage::Shut,\n", "                Gate::Closed => Stage::Stored,\n"),
        (STEPS, "        close_slot(blocks, self.slot, self.gate)\n",
         "        close_slot(blocks, self.slot, sn_layout::Gate::Open)\n")],
    "the slot isn't closed": [
        (STEPS, "        close_slot(blocks, self.slot, self.gate)\n", "        blocks.sync()\n")],
    "the slot of the root that counts is closed": [
        (STEPS, "        close_slot(blocks, self.slot, self.gate)\n",
         "        close_slot(blocks, self.slot.other(), self.gate)\n")],
    "the point begins in the half of the root's epoch": [
        ("sn_cp/src/beginning.rt", "LogHalf::of_epoch(epoch))", "LogHalf::of_epoch(epoch - 1))")],
    "each block of the map is written as its first": [
        (STEPS, "    let from = WORDS_PER_BLOCK * k as usize;\n", "    let from = 0 * k as usize;\n")],
}


def run_program(count):
    """Runs the program as it was built, and answers its status."""
    if not PROGRAM.is_file():
        sys.exit(f"{PROGRAM} isn't there: run `../../.ci/rt run -- data points 1` in crates/{NAME}")
    return subprocess.run([PROGRAM, ".", "points", str(count)]).returncode


def planted(changes, count):
    """What the program says with these changes of the code, tried in a copy."""
    with tempfile.TemporaryDirectory() as temporary:
        top = Path(temporary)
        wanted = below(NAME)
        (top / "crates.txt").write_text("".join(f"{line}\n" for line in wanted.values()))
        for crate in wanted:
            shutil.copytree(TOP / "crates" / crate, top / "crates" / crate, ignore=shutil.ignore_patterns("out", "must-fail"))
        for file, old, new in changes:
            path = top / "crates" / file
            text = path.read_text()
            if text.count(old) != 1:
                sys.exit(f"{file} has not one {old.strip()}")
            path.write_text(text.replace(old, new))
        run = subprocess.run(["rt", "try", "--seconds", "600", "--", ".", "points", str(count)], cwd=top / "crates" / NAME,
                             capture_output=True, text=True)
        return run.stdout + run.stderr


def try_faults(count):
    """Plants each fault, and answers how many weren't found."""
    lost = 0
    for name, changes in FAULTS.items():
        said = planted(changes, count)
        wrong = re.findall(r"^(.*): (\d+) cases, ([1-9]\d*) wrong$", said, re.M)
        failed = re.findall(r"^.*(?:a point without an end|a device without a fault).*$", said, re.M)
        if wrong:
            print(f"{name}: found: " + "; ".join(f"{subject}, {bad} of {cases}" for subject, cases, bad in wrong), flush=True)
        elif failed:
            print(f"{name}: found: {failed[0].strip()}", flush=True)
        else:
            lost += 1
            print(f"{name}: NOT FOUND\n{said[-2000:]}", flush=True)
    return lost


def main():
    words = sys.argv[1:]
    if words[:1] == ["--faults"]:
        sys.exit(1 if try_faults(int(words[1]) if len(words) > 1 else 20) else 0)
    sys.exit(1 if run_program(int(words[0]) if words else 10000) else 0)


if __name__ == "__main__":
    main()
