#!/usr/bin/env python3
"""Lets large drawn runs of the program crash and fail, and looks at what each of them leaves.

    bench/crashes/crashes.py [--scripts N] [--lines N] [--cuts N] [--refusals N] [--first SEED] [--processes N] [--snapfs PATH]

Run by hand: it wants gcc for the refusals, since they come from a small library that stands before the C library's, and
builds the program where it isn't up to date, or takes the one of PATH. With TMPDIR on a file system in memory, as /dev/shm,
it takes a fraction of the time, since each run syncs. Each of 20 scripts of 600 lines is drawn from a seed (`drawn_calls.py`)
and run on an image of 256 to 280 blocks. Its replies have to be those of a plain name tree (`plain_world.py`), but that a
change may be refused with `ENOSPC`. Then, drawn from the seed too:

- 100 times it is cut short by `stop-at`, behind any of its writes, with any fill; and one time in four what is left has each
  of the sectors that weren't synced old or new, torn at any byte, or random. The replies before the cut stay, and what
  is left is the world behind the calls that were answered, or behind one call more. The mount of that is cut short in the
  same way, and what that leaves again, and once more: the world stays the one that was found first.
- 40 times a run on a file meets one refusal: the Nth read, write, sync or allocation of all that it makes. A refused
  allocation is told as `ENOMEM`, another refusal as `EIO`. Behind an allocation or a read that failed, the mount goes on, and nothing
  has changed; behind a write or a sync it has stopped, and the next `restart` finds the world before that call or behind
  it, as the next run does.

All that is left has to be clean by `check` and by the plain reading of `plain_check.py`, with as many free blocks, before it
is mounted and behind that. Prints how many of each there were, and each that is wrong; the status is 1 where one is.
"""

import argparse
import copy
import os
import random
import shutil
import subprocess
import sys
import tempfile
from collections import Counter
from multiprocessing import Pool
from pathlib import Path

sys.dont_write_bytecode = True
sys.path.append(str(Path(__file__).resolve().parents[1] / "plain"))

from drawn_calls import Script  # noqa: E402
from plain_check import answer  # noqa: E402
from plain_format import SECTOR  # noqa: E402
from plain_world import World  # noqa: E402

TOP = Path(__file__).resolve().parents[2]
BUILT = TOP / "crates/sn_bin/out/sn_bin"
FILLS = ("old", "new", "zero", "one", "junk")
MOST_BLOCKS, FEWEST_BLOCKS = 280, 256
MOST_READ = 65_536
DEPTH, SECONDS = 3, 120
KINDS = ("read", "write", "sync", "memory")
STOPPED = "err ESTOPPED"
NO_ROOM, REFUSED = "err ENOSPC", ("err ENOSPC", "err ENOMEM")

REFUSE = r"""
#define _GNU_SOURCE
#include <dlfcn.h>
#include <errno.h>
#include <stdio.h>
#include <stdlib.h>
#include <string.h>
#include <sys/types.h>

static long count, refused = -1;
static const char *kind;

static int refuses(const char *called) {
    if (refused < 0) {
        refused = atol(getenv("REFUSED"));
        kind = getenv("REFUSED_KIND");
    }
    return strcmp(kind, called) == 0 && ++count == refused;
}

#define REAL(name) static __typeof__(&name) real; if (!real) real = (__typeof__(&name))dlsym(RTLD_NEXT, #name)
#define FAIL(answer, number) return errno = number, answer

ssize_t pread(int file, void *data, size_t size, off_t at) { REAL(pread); if (refuses("read")) FAIL(-1, EIO); return real(file, data, size, at); }
ssize_t pread64(int file, void *data, size_t size, off64_t at) { REAL(pread64); if (refuses("read")) FAIL(-1, EIO); return real(file, data, size, at); }
ssize_t pwrite(int file, const void *data, size_t size, off_t at) { REAL(pwrite); if (refuses("write")) FAIL(-1, EIO); return real(file, data, size, at); }
ssize_t pwrite64(int file, const void *data, size_t size, off64_t at) { REAL(pwrite64); if (refuses("write")) FAIL(-1, EIO); return real(file, data, size, at); }
int fdatasync(int file) { REAL(fdatasync); if (refuses("sync")) FAIL(-1, EIO); return real(file); }
void *malloc(size_t size) { REAL(malloc); if (refuses("memory")) FAIL(NULL, ENOMEM); return real(size); }
void *realloc(void *old, size_t size) { REAL(realloc); if (refuses("memory")) FAIL(NULL, ENOMEM); return real(old, size); }
void *aligned_alloc(size_t to, size_t size) { REAL(aligned_alloc); if (refuses("memory")) FAIL(NULL, ENOMEM); return real(to, size); }
int posix_memalign(void **at, size_t to, size_t size) { REAL(posix_memalign); return refuses("memory") ? ENOMEM : real(at, to, size); }
extern void *__libc_calloc(size_t, size_t);
void *calloc(size_t n, size_t size) { if (refuses("memory")) FAIL(NULL, ENOMEM); return __libc_calloc(n, size); }

__attribute__((destructor)) static void tell(void) {
    const char *at = getenv("REFUSED_COUNT");
    FILE *file = at ? fopen(at, "w") : NULL;
    if (file)
        fprintf(file, "%ld\n", count), fclose(file);
}
"""


class Wrong(Exception):
    """What isn't as it has to be."""


# ---- what replies may be, and the worlds that they leave


class Followed:
    """The worlds that a run may have come to by the replies so far, in which a call of this kind is refused."""

    def __init__(self, kind):
        self.worlds, self.has_stopped, self.kind = [World()], False, kind

    def follow(self, line, reply, next_line, next_reply):
        """Takes one line with its reply, and the line and the reply that follow."""
        if self.has_stopped:
            self.follow_stopped(line, reply)
        elif reply in REFUSED:
            pass
        elif reply.startswith("fault "):
            self.stop(line == "restart", line)
        elif reply == "err EIO":
            self.fail(line, next_line, next_reply)
        else:
            self.answer(line, reply)

    def fail(self, line, next_line, next_reply):
        """A call of the device failed in this line. A read leaves all as it was."""
        if self.kind == "memory" or (self.kind == "read" and next_reply == STOPPED):
            raise Wrong(f"{line[:80]}: a refused {self.kind}, and then {next_reply}")
        if self.kind == "read":
            return
        # A restart that mounts the disk hides that the mount had stopped.
        if next_reply not in (None, STOPPED) and next_line != "restart":
            raise Wrong(f"{line[:80]}: the mount goes on")
        self.stop(True, line)

    def answer(self, line, reply):
        # Which step ends a point follows from the blocks that changed, of which the tree knows nothing.
        if (line, reply) != ("step", "ok more"):
            self.worlds = [world for world in self.worlds if world.answer(line) == reply]
        if not self.worlds:
            raise Wrong(f"{line[:80]}: {reply[:80]}")

    def stop(self, may_stop, line):
        """The mount has stopped in this line, whose change may be there."""
        if not may_stop:
            raise Wrong(f"{line[:80]}: a fault of a mount")
        behind = copy.deepcopy(self.worlds)
        for world in behind:
            world.answer(line)
        self.worlds += behind
        self.has_stopped = True
        for world in self.worlds:
            world.crash()

    def follow_stopped(self, line, reply):
        if line == "restart" and reply == "ok":
            self.has_stopped = False
        elif reply != STOPPED and not (line == "restart" and reply.startswith("fault ")):
            raise Wrong(f"{line[:80]}: {reply[:80]} in a stopped mount")


def worlds_behind(lines, replies, kind="write"):
    """The worlds, one or two, that a crash behind these replies may leave, where a call of this kind is refused."""
    followed = Followed(kind)
    for at, (line, reply) in enumerate(zip(lines, replies)):
        following = (lines[at + 1], replies[at + 1]) if at + 1 < len(replies) else (None, None)
        followed.follow(line, reply, *following)
    for world in followed.worlds:
        world.crash()
    return followed.worlds


def all_paths(world):
    """Each path of the live tree and of those of the snapshots, with what it stands for."""
    yield from world.paths()
    for name, root in world.snapshots.items():
        yield f"/.snapshot/{name}", root
        yield from world.paths(f"/.snapshot/{name}", root)


def look_at(worlds):
    """A script that looks at all that these worlds have, and its replies in each of them."""
    longest = {"/": 0}
    for world in worlds:
        for path, node in all_paths(world):
            longest[path] = max(longest.get(path, 0), len(node.data or b""))
    lines = ["0 login 0 0 -", "0 snap-list"]
    for path, length in sorted(longest.items()):
        lines += [f"0 {call.format(path)}" for call in ("stat {}", "readdir {}", "getacl {} a", "getacl {} d", "open {} r")]
        lines += [f"0 read 0 {MOST_READ}"] * (length // MOST_READ + 1) + ["0 close 0"]
    copies = copy.deepcopy(worlds)
    return lines, [[world.answer(line) for line in lines] for world in copies]


# ---- the program on images


class Case:
    """A script with a folder for its images."""

    def __init__(self, seed, words, folder):
        self.drawn, self.words, self.folder, self.counts = random.Random(-1 - seed), words, Path(folder), Counter()
        script = Script(seed, words.lines)
        self.lines = script.lines
        (self.folder / "script").write_text(script.text())
        (self.folder / "none").write_text("")
        self.program("mkfs", "fresh", str(self.drawn.randint(FEWEST_BLOCKS, MOST_BLOCKS)))
        shutil.copy(self.folder / "fresh", self.folder / "whole")
        self.replies = self.program("run", "whole", "script").stdout.splitlines()
        self.counts["lines"] += len(self.lines)
        self.counts["refused for room"] += self.replies.count(NO_ROOM)
        told = [reply for line, reply in zip(self.lines, self.replies) if " snap-restore " in line]
        self.counts["snapshots brought back"] += told.count("ok")
        self.counts["refused to be brought back"] += len(told) - told.count("ok")

    def program(self, *words, status=0, environment=None):
        """A run of the program that ends with this status, or with any."""
        how = {"cwd": self.folder, "capture_output": True, "text": True, "timeout": SECONDS, "env": environment}
        ran = subprocess.run([self.words.snapfs, *words], **how)
        if status is not None and ran.returncode != status:
            raise Wrong(f"{' '.join(words)}: status {ran.returncode}: {ran.stdout[-200:]}{ran.stderr}")
        return ran

    def cut(self, writes, fill, image, script, left):
        return self.program("stop-at", str(writes), fill, image, script, left)

    def writes(self):
        """How many writes the script takes: the least number behind which it isn't stopped, or 1."""
        few, many = 0, 1024
        while self.is_stopped(many):
            few, many = many, 2 * many
        while many - few > 1:
            middle = (few + many) // 2
            few, many = (middle, many) if self.is_stopped(middle) else (few, middle)
        return many

    def is_stopped(self, writes):
        return self.cut(writes, "old", "fresh", "script", "left").stderr != ""

    def is_clean(self, image):
        """Sees that the image is sound, by the program and by the plain reading."""
        wanted = answer((self.folder / image).read_bytes())
        told = self.program("check", image, status=None).stdout.strip()
        if not wanted.startswith("clean ") or told != wanted:
            raise Wrong(f"check: {told}, by a plain reading {wanted}")

    def found(self, image, worlds):
        """Which of the worlds an image opens to."""
        self.is_clean(image)
        lines, wanted = look_at(worlds)
        (self.folder / "look").write_text("".join(f"{line}\n" for line in lines))
        shutil.copy(self.folder / image, self.folder / "looked")
        told = self.program("run", "looked", "look").stdout.splitlines()
        self.is_clean("looked")
        if told not in wanted:
            differing = next(at for at, reply in enumerate(told) if reply != wanted[-1][at])
            raise Wrong(f"{lines[differing]}: {told[differing][:80]}, and not {wanted[-1][differing][:80]}")
        return worlds[wanted.index(told)]

    # ---- crashes

    def tear(self, writes, image, script, left):
        """What a crash may leave: each sector that wasn't synced old, new, torn, or of any bytes."""
        made = {}
        for fill in ("old", "new", "zero", "one"):
            self.cut(writes, fill, image, script, left)
            made[fill] = (self.folder / left).read_bytes()
        data, how = bytearray(made["old"]), self.drawn.choice(("either", "torn", "random"))
        for at in range(0, len(data), SECTOR):
            part = slice(at, at + SECTOR)
            if made["zero"][part] != made["one"][part]:
                data[part] = self.torn(made["old"][part], made["new"][part], how)
        (self.folder / left).write_bytes(data)

    def torn(self, old, new, how):
        if how == "either" or self.drawn.randrange(4) == 0:
            return self.drawn.choice((old, new))
        if how == "random":
            return self.drawn.randbytes(SECTOR)
        at = self.drawn.randrange(SECTOR)
        return self.drawn.choice((old[:at] + new[at:], new[:at] + old[at:]))

    def crash(self, writes, image, script, left):
        """Cuts a run short, and answers its replies and how."""
        fill = self.drawn.choice(FILLS)
        told = self.cut(writes, fill, image, script, left).stdout.splitlines()
        if self.drawn.randrange(4) == 0:
            fill = "torn"
            self.tear(writes, image, script, left)
        return told, f"{writes} {fill}"

    def has_front(self, told):
        """Sees that the replies are those of the whole run, up to the one that tells of the stop."""
        ends = [at for at, reply in enumerate(told) if reply in ("err EIO", "fault M6")]
        front = told[: ends[0]] if ends else told
        if front != self.replies[: len(front)]:
            raise Wrong("the replies before the cut are others")

    def try_cut(self, writes):
        """Cuts the run short behind so many writes, and then its recovery, again and again."""
        how = []
        try:
            told, said = self.crash(writes, "fresh", "script", "left0")
            how.append(said)
            self.has_front(told)
            worlds = worlds_behind(self.lines, told)
            found = self.found("left0", worlds)
            self.counts["cuts"] += 1
            for depth in range(1, DEPTH + 1):
                later = self.drawn.choice((0, 1, 2, self.drawn.randrange(40), self.drawn.randrange(400)))
                how.append(self.crash(later, f"left{depth - 1}", "none", f"left{depth}")[1])
                self.found(f"left{depth}", [found])
                self.counts[f"cuts of recovery, {depth} deep"] += 1
        except Wrong as wrong:
            return [f"cut at {', '.join(how)}: {wrong}"]
        return []

    # ---- refusals

    def refused(self, kind, at):
        """A run on a file in which the call of that kind with this number is refused; none is where it is 0."""
        shutil.copy(self.folder / "fresh", self.folder / "image")
        given = {"LD_PRELOAD": self.words.refuse, "REFUSED": str(at), "REFUSED_KIND": kind}
        given["REFUSED_COUNT"] = str(self.folder / "count")
        return self.program("run", "image", "script", status=None, environment={**os.environ, **given})

    def try_refusal(self, kind, at):
        try:
            ran = self.refused(kind, at)
            told, said = ran.stdout.splitlines(), ran.stderr.strip()
            self.counts[f"{kind}: {said or 'went on'}"] += 1
            if ran.returncode not in (0, 1) or (ran.returncode == 0) != (said == ""):
                raise Wrong(f"status {ran.returncode}: {said}")
            is_whole = len(told) == len(self.lines) or said in ("snapfs: M5", "snapfs: M6")
            worlds = worlds_behind(self.lines, told, kind)
            if is_whole:
                self.found("image", worlds)
            elif said in ("snapfs: memory", "snapfs: file"):
                self.is_clean("image")
            else:
                raise Wrong(f"{len(told)} replies, {said}")
        except Wrong as wrong:
            return [f"{kind} {at} refused: {wrong}"]
        return []

    def try_refusals(self, count):
        wrong, most = [], {}
        for kind in KINDS:
            self.refused(kind, 0)
            most[kind] = int((self.folder / "count").read_text())
        for kind in [KINDS[at % len(KINDS)] for at in range(count)]:
            wrong += self.try_refusal(kind, self.drawn.randint(1, most[kind])) if most[kind] else [f"no {kind} was seen"]
        return wrong


def try_script(given):
    """How many there were of each thing in a script's runs, and what was wrong."""
    seed, words = given
    with tempfile.TemporaryDirectory() as folder:
        try:
            case = Case(seed, words, folder)
            [whole] = worlds_behind(case.lines, case.replies)
            case.found("whole", [whole])
            most = case.writes()
        except Wrong as wrong:
            return Counter(), [f"seed {seed}: {wrong}"]
        wrong = [it for _ in range(words.cuts) for it in case.try_cut(case.drawn.randint(0, most))]
        wrong += case.try_refusals(words.refusals)
    case.counts["scripts"], case.counts["writes"] = 1, most
    return case.counts, [f"seed {seed}: {it}" for it in wrong]


def asked():
    words = argparse.ArgumentParser(description="Lets large drawn runs crash and fail, and looks at what is left.")
    for name, default in (("scripts", 20), ("lines", 600), ("cuts", 100), ("refusals", 40), ("first", 0), ("processes", 2)):
        words.add_argument(f"--{name}", type=int, default=default)
    words.add_argument("--snapfs", type=Path, help="the program, where it isn't the one of this repository")
    return words.parse_args()


def main():
    words = asked()
    with tempfile.TemporaryDirectory() as folder:
        if words.snapfs is None:
            subprocess.run([TOP / "snapfs", "--build"], check=True)
        words.snapfs, words.refuse = (words.snapfs or BUILT).resolve(), f"{folder}/refuse.so"
        (Path(folder) / "refuse.c").write_text(REFUSE)
        subprocess.run(["gcc", "-O1", "-shared", "-fPIC", "-w", "-o", words.refuse, f"{folder}/refuse.c", "-ldl"], check=True)
        counts, wrong = Counter(), []
        with Pool(words.processes) as pool:
            seeds = [(seed, words) for seed in range(words.first, words.first + words.scripts)]
            for found, lines in pool.imap_unordered(try_script, seeds):
                counts += found
                wrong += lines
                print("".join(f"{line}\n" for line in lines), end="", flush=True)
    print("\n".join(f"{counts[name]} {name}" for name in sorted(counts)))
    print(f"{len(wrong)} wrong")
    sys.exit(1 if wrong else 0)


if __name__ == "__main__":
    main()
