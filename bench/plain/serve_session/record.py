#!/usr/bin/env python3
"""Records what Linux says to the server of a mount while tar unpacks and packs a tree, as a conversation.

    bench/plain/serve_session/record.py FILE

Run by hand, as root on Linux with /dev/fuse, GNU tar and setfacl. This process is the server: it answers each message by the plain reading in
`plain_serve.py`, and writes messages and replies to FILE as the lines of a conversation, in the order in which they came. The numbers of processes are
left out, since the groups of user 0 aren't read, those of messages, which are their places, and STATFS, whose reply tells of points. The status is that of
the client, which is 1 where what was packed isn't what was unpacked.
"""

import os
import subprocess
import sys
import tempfile
from pathlib import Path

sys.dont_write_bytecode = True

from plain_serve import Senders, Server  # noqa: E402
from spelling import line_of, reply_of  # noqa: E402

sys.path.insert(0, str(Path(__file__).resolve().parent.parent))

from plain_callers import Callers  # noqa: E402

LARGEST = 135_168
LEFT_OUT = ("STATFS",)
# What the client does in the mount's directory, with the folder of the tree as $1 and the mount as $2.
CLIENT = """
set -eu
umask 022
cd "$1"
mkdir -p tree/bin tree/doc/deep/er tree/empty tree/shared
for name in one two three four five six; do echo "$name" > "tree/doc/$name"; done
for name in a b; do printf '#!/bin/sh\\necho %s\\n' "$name" > "tree/bin/$name"; chmod 755 "tree/bin/$name"; done
: > tree/nothing
yes 'a line of twenty bytes' | head -c 12000 > tree/doc/deep/large
head -c 5000 /dev/zero > tree/doc/deep/er/zeros
echo private > tree/doc/private
chmod 600 tree/doc/private
chown 1001:100 tree/doc/two tree/shared
chmod 2775 tree/shared
ln tree/doc/one tree/doc/deep/one
setfacl -m u:1001:rw,g:50:r tree/doc/three
setfacl -d -m u:1002:rwx tree/shared
echo 'a name of words' > 'tree/a name'
tar --acls --sort=name -cf tree.tar tree
tar --acls -xpf tree.tar -C "$2"
tar --acls --sort=name -cf again.tar -C "$2" tree
for archive in tree again; do
    mkdir "from_$archive"
    tar --acls -xpf "$archive.tar" -C "from_$archive"
    (cd "from_$archive" && getfacl -R -n tree && find tree -type f -printf '%p %n ' -exec cksum {} \;) > "told_$archive"
done
cmp told_tree told_again
"""


class Recorder:
    """The server of a mount, and the lines of what it was asked and answered."""

    def __init__(self, device):
        self.device, self.server, self.lines = device, Server(Callers(), Senders([])), []

    def answer(self, message):
        line, reply = line_of(message), self.server.answer(message)
        words = line.split(" ")
        words[2] = ":".join(words[2].split(":")[:2])
        if words[0] not in LEFT_OUT:
            self.lines += [f"> {' '.join(words)}", f"< {reply}"]
        data = reply_of(int.from_bytes(message[8:16], "little"), reply)
        if data:
            os.write(self.device, data)

    def serve(self):
        """Answers messages until the mount is gone."""
        while True:
            try:
                message = os.read(self.device, LARGEST)
            except InterruptedError:
                continue
            except FileNotFoundError:
                # The message was taken back.
                continue
            except OSError:
                return
            self.answer(message)


def run_client(folder, mount):
    """A process that uses the mount, and unmounts it in the end."""
    script = f'({CLIENT}); status=$?; umount "$2" || umount -l "$2"; exit $status'
    return subprocess.Popen(["sh", "-c", script, "sh", folder, mount])


def head():
    system = os.uname()
    tar = subprocess.run(["tar", "--version"], capture_output=True, check=True, text=True).stdout.split("\n")[0]
    return [
        f"# What {system.sysname} {system.release.split('-')[0]} said to the server of a mount while user 0 unpacked and packed a tree by {tar},",
        "# recorded by bench/plain/serve_session/record.py, which answered by the plain reading: all replies are of that, with a clock that shows 0. The groups of",
        "# user 0 aren't read, so that the numbers of processes are left out, and so is STATFS. INIT is told by its opcode, 26, and its body, and so is what has a",
        "# name with spaces.",
    ]


def main():
    with tempfile.TemporaryDirectory() as folder:
        mount = Path(folder) / "mount"
        mount.mkdir()
        device = os.open("/dev/fuse", os.O_RDWR)
        options = f"fd={device},rootmode=40000,user_id=0,group_id=0,allow_other,max_read=65536"
        subprocess.run(["mount", "-i", "-t", "fuse.snapfs", "-o", options, "snapfs", mount], check=True, pass_fds=[device])
        client = run_client(folder, str(mount))
        recorder = Recorder(device)
        recorder.serve()
        status = client.wait()
    Path(sys.argv[1]).write_text("\n".join([*head(), "", "= clean", *recorder.lines]) + "\n")
    print(f"{len(recorder.lines) // 2} messages")
    return status


if __name__ == "__main__":
    sys.exit(main())
