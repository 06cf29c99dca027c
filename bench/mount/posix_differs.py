"""What may differ between a mount and the host's file system: the cases of posix.py, by their names or patterns of these, and why."""

import fnmatch

DIFFERS = {
    "access a file root": "user 0 is granted everything, also to run what nobody may run",
    "access a file of anna's root": "the same",
    "link a file anna": "a link takes no right on the file, and fs.protected_hardlinks asks the kernel alone",
    "link a file ben": "the same",
    "link a file of anna's ben": "the same",
    "rename with flags 2": "names aren't exchanged",
    "rename with flags 4*": "nothing is left in the place of a name",
    "rename of a closed directory to another": "a directory is moved without a right on it",
    "name 86 of one escape*": "a name of over 255 bytes in the image",
    "name 43 of two bytes*": "the same",
    "path of too many parts": "a path of over 1,023 bytes",
    "path by steps": "the same",
    "chmod 4755*": "set-user-ID is dropped",
    "chmod 2775 of a directory anna": "a directory keeps S_ISGID as it is asked for",
    "chmod 2600 of a directory anna": "the same",
    "chown * root": "S_ISGID stays where user 0 sets the owner",
    "chown -1 -1*": "nothing is asked where nothing is set",
    "open with mode*": "the S bits of the mode of what is made are dropped",
    "mkdir with mode 1777": "the same",
    "S bits of a file that is written b'more'": "S_ISGID stays where others write",
    "S bits of a file that is cut": "the same",
    "a program that may not be read": "a program is opened to read",
    "ACL user twice": "an entry comes once",
    "default ACL user twice": "the same",
    "ACL users unsorted": "entries are kept in order",
    "default ACL users unsorted": "the same",
    "ACL 33 users": "32 entries at the most",
    "default ACL 33 users": "the same",
    "access by u::6,u:1002:6,g::6,m::0,o::6 ben": "a mask without rights denies whom an entry names",
    "attribute nothing": "no other attributes",
    "attribute that is set": "the same",
    "a file that is too large": "64 GiB at the most",
    "unlinked: *": "what has no name is read and written alone",
    "removed while one is in it": "a removed directory has no attributes",
    "fallocate": "not there",
    "without a name": "not there",
    "symbolic link": "not there",
    "pipe": "not there",
    "device": "not there",
    "socket": "not there",
    "access time of *": "reading sets no time",
}


# Those that don't differ where Linux checks: it asks there what it asks of any file system.
BY_DEFAULT = (
    "access a file root",
    "access a file of anna's root",
    "link a file anna",
    "link a file ben",
    "link a file of anna's ben",
    "rename of a closed directory to another",
    "chmod 2775 of a directory anna",
    "chmod 2600 of a directory anna",
    "a program that may not be read",
    "access by u::6,u:1002:6,g::6,m::0,o::6 ben",
)
# What differs there alone.
WITH_KERNEL = {
    "chown * anna": "S_ISGID stays, since user 0 sets the owner",
}


def may_differ(is_checked):
    """What may differ, where Linux checks or the program does."""
    if not is_checked:
        return DIFFERS
    return {pattern: why for pattern, why in DIFFERS.items() if pattern not in BY_DEFAULT} | WITH_KERNEL


def why_it_may(name, differs):
    """The first of these patterns that a name is of."""
    fronts = [pattern for pattern in differs if fnmatch.fnmatchcase(name, pattern)]
    return fronts[0] if fronts else None
