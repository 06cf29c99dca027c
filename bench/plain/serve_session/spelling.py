"""Messages and replies of a mount as lines and as bytes, as docs/MESSAGES.md has them. `crates/sn_testing_fuse` says what the lines are."""

import errno
import struct

# Each operation: its opcode and a letter for each field: w four bytes, q eight, g four that aren't read, s the size of the data, c the count of pairs,
# n a name, d data, p pairs.
LAYOUTS = {
    "LOOKUP": (1, "n"), "FORGET": (2, "q"), "GETATTR": (3, "wgq"), "SETATTR": (4, "wgqqggqqggwwgwgwwg"), "SYMLINK": (6, "nn"), "MKNOD": (8, "wwwgn"),
    "MKDIR": (9, "wwn"), "UNLINK": (10, "n"), "RMDIR": (11, "n"), "RENAME": (12, "qnn"), "LINK": (13, "qn"), "OPEN": (14, "wg"), "READ": (15, "qqwggggg"),
    "WRITE": (16, "qqswggggd"), "STATFS": (17, ""), "RELEASE": (18, "qgggg"), "FSYNC": (20, "qwg"), "SETXATTR": (21, "swnd"), "GETXATTR": (22, "wgn"),
    "LISTXATTR": (23, "wg"), "REMOVEXATTR": (24, "n"), "FLUSH": (25, "qgggg"), "INIT": (26, "wwww"), "OPENDIR": (27, "wg"), "READDIR": (28, "qqwggggg"),
    "RELEASEDIR": (29, "qgggg"), "FSYNCDIR": (30, "qwg"), "ACCESS": (34, "wg"), "CREATE": (35, "wwwgn"), "INTERRUPT": (36, "q"),
    "BATCH_FORGET": (42, "cgp"), "RENAME2": (45, "qwgnn"),
}
WORDS = {opcode: word for word, (opcode, _) in LAYOUTS.items()}
HEAD, PROCESS, UNREAD, YEAR = 40, "77", b"\xa5" * 4, 31_536_000
NO_TIMES, HELD_FOR = ((0, 0),) * 3, {False: "0 0", True: f"{YEAR} 0"}
KINDS = {"directory": 4, "file": 8}


class Misspelt(Exception):
    """A body that is none of its operation."""


# ---- messages


def number_of(word):
    return int(word[2:], 8) if word.startswith("0o") else int(word)


def body_of(layout, words):
    body, words = b"", [*words]
    for letter in layout:
        if letter in "wq":
            body += struct.pack("<I" if letter == "w" else "<Q", number_of(words.pop(0)))
        elif letter == "g":
            body += UNREAD
        elif letter == "s":
            body += struct.pack("<I", len(words[-1]) // 2)
        elif letter == "c":
            body += struct.pack("<I", len(words))
        elif letter == "n":
            body += words.pop(0)[1:].encode() + b"\0"
        elif letter == "d":
            body += bytes.fromhex(words.pop(0)[1:])
        else:
            body += b"".join(struct.pack("<QQ", *map(int, word.split(":"))) for word in words)
    return body


def message_of(unique, line):
    """The bytes of a line."""
    if line.startswith("x"):
        return bytes.fromhex(line[1:])
    word, node, who, *words = line.split()
    opcode, layout = LAYOUTS.get(word) or (int(word), "d")
    user, group, process = (*who.split(":"), PROCESS)[:3]
    body = body_of(layout, words)
    return struct.pack("<IIQQIII", HEAD + len(body), opcode, unique, int(node), int(user), int(group), int(process)) + UNREAD + body


def split_name(body):
    name, end, rest = body.partition(b"\0")
    if not name or not end:
        raise Misspelt
    return name, rest


def fields_of(opcode, body):
    """The fields of a body: numbers, names and data as bytes, and pairs."""
    fields, size = [], None
    for letter in LAYOUTS[WORDS[opcode]][1]:
        if letter in "wqsgc":
            width = 8 if letter == "q" else 4
            if len(body) < width:
                raise Misspelt
            number, body = int.from_bytes(body[:width], "little"), body[width:]
            size = number if letter in "sc" else size
            fields += [number] if letter in "wq" else []
        elif letter == "n":
            name, body = split_name(body)
            fields.append(name)
        else:
            if len(body) != size * (16 if letter == "p" else 1):
                raise Misspelt
            fields.append([*struct.iter_unpack("<QQ", body)] if letter == "p" else body)
            body = b""
    if body and WORDS[opcode] != "INIT":
        raise Misspelt
    return fields


def spell(field):
    if isinstance(field, int):
        return str(field)
    if isinstance(field, list):
        return " ".join(f"{node}:{lookups}" for node, lookups in field)
    return field


def line_of(message):
    """The line of a message, by which `message_of` gives its bytes but for those that aren't read. An operation that isn't known, or whose names no
    line has, is told by its opcode and its body."""
    _, opcode, _, node, user, group, process = struct.unpack_from("<IIQQIII", message)
    head, body = f"{node} {user}:{group}:{process}", message[HEAD:]
    word = WORDS.get(opcode)
    if word is None or word == "INIT":
        return f"{opcode} {head} x{body.hex()}"
    words, layout = [], [letter for letter in LAYOUTS[word][1] if letter in "wqndp"]
    for letter, field in zip(layout, fields_of(opcode, body)):
        if letter == "n" and (not field.isascii() or b" " in field):
            return f"{opcode} {head} x{body.hex()}"
        words.append(f"/{field.decode()}" if letter == "n" else f"x{field.hex()}" if letter == "d" else spell(field))
    return " ".join([word, head, *words])


# ---- replies


def attributes_in_full(words, times):
    """All attributes, of those of a short line and the times of access, modification and change."""
    number, mode, links, owners, size = words
    kind = {"d": 0x4000, "f": 0x8000}[mode[0]]
    dates = " ".join(f"{seconds} {nanoseconds}" for seconds, nanoseconds in times)
    return f"{number} {size} {(int(size) + 511) // 512} {dates} {kind | int(mode[1:], 8)} {links} {owners.replace(':', ' ')} 0 4096"


def in_full(line, times=NO_TIMES):
    """The line that spells all fields of what a short one tells of a node, and its times."""
    word, *words = line.removeprefix("HELD ").split()
    last = HELD_FOR[line.startswith("HELD ")]
    if word == "KNOWN":
        return f"ATTRIBUTES {last};{attributes_in_full(words, times)}"
    entry = f"{words[0]} 0 {YEAR} 0 {last};{attributes_in_full(words[1:6], times)}"
    return f"ENTRY {entry}" if word == "FOUND" else f"CREATED {entry};{words[6]} 0"


def attributes_of(words):
    numbers = [int(word) for word in words.split()]
    return struct.pack("<6Q10I", *numbers[:3], *numbers[3:9:2], *numbers[4:9:2], *numbers[9:], 0)


def entry_of(words, attributes):
    node, generation, name_lasts, name_fraction, last, fraction = map(int, words.split())
    return struct.pack("<QQQQII", node, generation, name_lasts, last, name_fraction, fraction) + attributes_of(attributes)


def opened_of(handle, flags="0"):
    return struct.pack("<QI4x", int(handle), int(flags))


def listing_of(size, *entries):
    """The entries that fit."""
    body = b""
    for entry in entries:
        number, offset, kind, name = entry.split(":", 3)
        one = struct.pack("<QQII", int(number), int(offset), len(name.encode()), KINDS[kind]) + name.encode()
        one += bytes(-len(one) % 8)
        if len(body) + len(one) > int(size):
            break
        body += one
    return body


def answer_body(line):
    word, _, rest = line.partition(" ")
    words, parts = rest.split(), rest.split(";")
    if word in ("HELD", "FOUND", "KNOWN", "MADE"):
        return answer_body(in_full(line))
    if word == "ENTRY":
        return entry_of(*parts)
    if word == "ATTRIBUTES":
        return struct.pack("<QI4x", *map(int, parts[0].split())) + attributes_of(parts[1])
    if word == "CREATED":
        return entry_of(*parts[:2]) + opened_of(*parts[2].split())
    if word == "OPENED":
        return opened_of(*words)
    if word in ("WRITTEN", "XATTRSIZE"):
        return struct.pack("<I4x", int(words[0]))
    if word == "STATISTICS":
        return struct.pack("<5Q3I28x", *map(int, words))
    if word == "INITIALIZED":
        return struct.pack("<IIIIHHIIH34x", *map(int, words))
    if word == "LISTING":
        return listing_of(*words)
    return bytes.fromhex("".join(words))


def reply_of(unique, line):
    """The bytes of a reply's line, none for `-`."""
    if line == "-":
        return b""
    word, *words = line.split()
    if word == "ERROR":
        return struct.pack("<IiQ", 16, -getattr(errno, words[0]), unique)
    body = b"" if word == "NOTHING" else answer_body(line)
    return struct.pack("<IiQ", 16 + len(body), 0, unique) + body
