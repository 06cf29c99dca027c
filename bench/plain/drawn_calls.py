"""Draws long scripts of calls of user 0, which fill the log and a small disk, empty it and fill it again.

The lines follow from a seed alone. They are drawn over the tree that stands where each call is done; where the disk has no
room for one, those behind it meet another tree, and are refused or not as that has it.
"""

import random

from plain_world import World

SESSIONS = 2
# How many files and directories are there at the most while the disk fills, and at the least while it is emptied.
MOST_NODES, FEWEST_NODES = 40, 6
LENGTHS = (1, 20, 64, 65, 300, 700, 4096, 4097, 9000, 20_000, 33_000)
SIZES = (0, 10, 64, 65, 4095, 4096, 10_000, 65_536, 65_537, 90_000)
ACLS = (
    "u::rwx,g::r-x,o::r-x",
    "u::rw-,u:7:rw-,u:1001:r--,g::---,m::rw-,o::---",
    "u::rwx,g::r-x,g:50:rwx,m::r-x,o::---",
)
# How often each kind of line is drawn, while the disk fills and while it is emptied.
WEIGHTS = {
    "make": (8, 2), "open": (14, 4), "write": (34, 6), "seek": (4, 2), "cut": (3, 6), "close": (9, 9), "link": (3, 1),
    "rename": (5, 5), "unlink": (2, 16), "rmdir": (1, 6), "attributes": (6, 4), "acl": (3, 2), "step": (20, 20), "sync": (1, 1),
    "restart": (1, 1), "logout": (1, 1), "wrong": (3, 3), "freeze": (1, 1), "thaw": (1, 1), "restore": (2, 2), "frozen": (4, 3),
}
SNAPSHOTS = ("s", "t", "old")
# Calls that read of a snapshot, of which an open is closed by a later line.
READING = ("stat {}", "readdir {}", "getacl {} a", "getacl {} d", "open {} r")
# Calls that are refused by what is there, or only read.
WRONG = ("mkdir {} 0755", "rmdir {}", "unlink {}/x", "rename {} {}/x", "stat {}", "readdir {}", "open {} rwcx 0644")


class Script:
    """Lines that were drawn, and the world behind them."""

    def __init__(self, seed, count):
        self.drawn, self.world, self.lines = random.Random(seed), World(), []
        self.is_filling = True
        while len(self.lines) < count:
            self.draw()

    def text(self):
        return "".join(f"{line}\n" for line in self.lines)

    def add(self, line):
        self.lines.append(line)
        self.world.answer(line)

    # ---- what is there

    def places(self):
        """The path of each directory, of the root without its slash."""
        return [""] + [path for path, node in self.world.paths() if node.names is not None and path.count("/") < 4]

    def paths(self, is_directory=None):
        return [path for path, node in self.world.paths() if is_directory in (None, node.names is not None)]

    def new_path(self):
        """A path that may be there already."""
        name = self.drawn.choice("abcdefghijkl") * self.drawn.choice((1, 1, 1, 2, 9, 200))
        return f"{self.drawn.choice(self.places())}/{name}"

    def descriptor(self, letter):
        """A session and a descriptor that is open so."""
        sessions = self.world.sessions.items()
        found = [(number, which) for number, it in sessions for which, opened in it["open"].items() if letter in opened.flags]
        return self.drawn.choice(found)

    # ---- lines

    def draw(self):
        for number in range(SESSIONS):
            if number not in self.world.sessions:
                self.add(f"{number} login 0 0 -")
        nodes = len(self.paths())
        if nodes > MOST_NODES or self.drawn.randrange(150) == 0:
            self.is_filling = False
        if nodes < FEWEST_NODES:
            self.is_filling = True
        weights = [filling if self.is_filling else emptying for filling, emptying in WEIGHTS.values()]
        session = self.drawn.randrange(SESSIONS)
        try:
            getattr(self, f"draw_{self.drawn.choices([*WEIGHTS], weights)[0]}")(session)
        except IndexError:
            # There is none to choose from.
            self.draw_open(session)

    def draw_make(self, session):
        self.add(f"{session} mkdir {self.new_path()} 0{self.drawn.choice('750')}55")

    def draw_open(self, session):
        files = self.paths(False)
        path = self.drawn.choice(files) if files and self.drawn.randrange(3) == 0 else self.new_path()
        flags = self.drawn.choice(("rwc", "wc", "wac", "rwcx", "rwct"))
        self.add(f"{session} open {path} {flags} 0{self.drawn.choice('640')}44")

    def draw_write(self, _):
        session, which = self.descriptor("w")
        length = self.drawn.choice(LENGTHS if self.is_filling else LENGTHS[:6])
        self.add(f"{session} write {which} {bytes([len(self.lines) % 255 + 1]).hex() * length}")

    def draw_seek(self, _):
        session, which = self.descriptor("w")
        self.add(f"{session} seek {which} {self.drawn.choice(SIZES)}")

    def draw_cut(self, _):
        session, which = self.descriptor("w")
        self.add(f"{session} ftruncate {which} {self.drawn.choice(SIZES)}")

    def draw_close(self, _):
        session, which = self.descriptor(self.drawn.choice("rw"))
        self.add(f"{session} close {which}")

    def draw_link(self, session):
        self.add(f"{session} link {self.drawn.choice(self.paths(False))} {self.new_path()}")

    def draw_rename(self, session):
        self.add(f"{session} rename {self.drawn.choice(self.paths())} {self.new_path()}")

    def draw_unlink(self, session):
        self.add(f"{session} unlink {self.drawn.choice(self.paths(False))}")

    def draw_rmdir(self, session):
        self.add(f"{session} rmdir {self.drawn.choice(self.paths(True))}")

    def draw_attributes(self, session):
        path = self.drawn.choice(self.paths())
        change = self.drawn.choice(("chmod {} 0700", "chmod {} 1755", "chmod {} 2750", "chown {} 7 8", "chown {} 0 0"))
        self.add(f"{session} {change.format(path)}")

    def draw_acl(self, session):
        if self.drawn.randrange(2) == 0:
            self.add(f"{session} setacl {self.drawn.choice(self.paths())} a {self.drawn.choice(ACLS)}")
        else:
            self.add(f"{session} setacl {self.drawn.choice(self.paths(True))} d {self.drawn.choice((*ACLS, '-'))}")

    def draw_step(self, _):
        self.add("step")

    def draw_sync(self, session):
        self.add(f"{session} sync")

    def draw_restart(self, _):
        self.add("restart")

    def draw_logout(self, session):
        self.add(f"{session} logout")

    def draw_wrong(self, session):
        """A call that is refused by what is there, or reads alone."""
        path = self.drawn.choice(self.paths())
        self.add(f"{session} {self.drawn.choice(WRONG).format(path, path)}")

    def draw_freeze(self, session):
        self.add(f"{session} snap-create {self.drawn.choice(SNAPSHOTS)}")

    def draw_thaw(self, session):
        self.add(f"{session} snap-delete {self.drawn.choice(SNAPSHOTS)}")

    def draw_restore(self, session):
        """A snapshot that there is, if there is one. Mostly all sessions end first, since a live file that is open is a bar."""
        name = self.drawn.choice([*self.world.snapshots] or SNAPSHOTS)
        if self.drawn.randrange(4) > 0:
            for number in sorted(self.world.sessions):
                self.add(f"{number} logout")
            self.add(f"{session} login 0 0 -")
        self.add(f"{session} snap-restore {name}")

    def draw_frozen(self, session):
        name = self.drawn.choice([*self.world.snapshots])
        paths = [path for path, _ in self.world.paths(f"/.snapshot/{name}", self.world.snapshots[name])]
        self.add(f"{session} {self.drawn.choice(READING).format(self.drawn.choice(paths))}")
