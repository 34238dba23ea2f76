"""What the lines of a script look like, what a refusal means and what a fault says, in words."""
from __future__ import annotations

import os

FORMS = {
    "begin": "begin",
    "commit": "commit",
    "abort": "abort",
    "checkpoint": "checkpoint",
    "log": "log",
    "files": "files",
    "space": "space",
    "file": "file NAME",
    "unfile": "unfile NAME",
    "list": "list FILE",
    "create": "create FILE as @NAME",
    "destroy": "destroy X",
    "freeze": "freeze X as @NAME",
    "derive": "derive X as @NAME",
    "versions": "versions X",
    "drop": "drop X",
    "size": "size X",
    "stat": "stat X",
    "digest": "digest X",
    "read": "read X POS LEN",
    "insert": "insert X POS DATA",
    "append": "append X DATA",
    "replace": "replace X POS DATA",
    "delete": "delete X POS LEN",
    "scan": "scan X as SCAN in GROUP",
    "next": "next SCAN LEN",
    "close": "close SCAN",
    "group": "group GROUP FRAMES RULE",
}
"""The lines that the program takes, by their first word."""

SENTENCES = {
    "begin": "opens a transaction; what it changes can be seen by this run alone until its commit",
    "commit": "makes the transaction's changes durable: once it is answered they stay",
    "abort": "drops the transaction's changes, and unbinds the names that it bound",
    "checkpoint": "writes what the log has to its place, and empties the log",
    "log": "tells how many records the log has",
    "files": "tells the names of all files",
    "space": "tells how many pages and segment units are in use, and how many there are",
    "file": "makes an empty file, which is a folder of objects",
    "unfile": "removes a file without objects",
    "list": "tells the identifiers of a file's current versions",
    "create": "makes an empty object in a file, and binds a name to it for this run",
    "destroy": "removes a current version, and its object where it is the only one",
    "freeze": "keeps a version as it is now: a frozen copy comes before it, and gets the name",
    "derive": "opens a current version with the bytes of a frozen one, to go on from it",
    "versions": "tells the identifiers of all versions of an object",
    "drop": "removes a frozen version; what is derived from it goes on from its older one",
    "size": "tells how many bytes a version has",
    "stat": "tells how a version lies: small on its page, or as a tree of leaves",
    "digest": "tells the SHA-256 of a version's bytes",
    "read": "tells bytes from a position on, as hexadecimal digits",
    "insert": "puts bytes in before the byte at a position",
    "append": "puts bytes at the end",
    "replace": "puts bytes over those from a position on",
    "delete": "takes bytes out",
    "scan": "opens a scan, which gives the bytes as they are now, whatever is changed later",
    "next": "tells a scan's next bytes",
    "close": "closes a scan",
    "group": "makes a group of frames in memory of its own, for scans to read through",
}
"""What each line does, in a sentence."""

SYNONYMS = {
    "rollback": "abort", "cancel": "abort", "undo": "abort", "start": "begin", "save": "commit",
    "cat": "read", "get": "read", "print": "read", "ls": "list", "dir": "files", "tables": "files",
    "rm": "destroy", "remove": "destroy", "del": "delete", "cut": "delete", "mkdir": "file",
    "rmdir": "unfile", "new": "create", "add": "append", "write": "replace", "put": "append",
    "len": "size", "length": "size", "hash": "digest", "sha256": "digest", "df": "space",
    "history": "versions", "snapshot": "freeze", "branch": "derive", "open": "scan",
    "sync": "checkpoint", "show": "read",
}
"""Words of other programs, with the line that does what they do here."""

WORDS = ("X is @NAME or page.slot.unique; DATA is hex:DIGITS, two a byte, or rep:COUNT:BYTE; "
         "NAME, FILE, SCAN and GROUP are 1 to 32 of a-z 0-9 _")

WORDS_OF = {
    "scan": "`in GROUP` may be left out",
    "group": "FRAMES is 1 to 1024; RULE is lru or mru",
}
"""What the words of the forms stand for: of all of them, and what is said of some lines besides."""

MEANINGS = {
    "line_long": "a line has at most 1,048,576 bytes: give data in pieces of at most 524,000 bytes",
    "data_limit": "a line gives or asks for at most 16,777,216 bytes: use several lines",
    "no_txn": "no transaction is open: send `begin` first",
    "txn_open": "a transaction is open: `commit` or `abort` it first",
    "no_name": "no `create`, `freeze` or `derive` of this run bound the name: names last for one "
               "run, and those of an aborted transaction are gone; `list FILE` tells identifiers",
    "name_taken": "the name is taken in this run, by an object, also where that is gone, by an "
                  "open scan or by a group: take another",
    "no_file": "there is no such file: `files` tells them",
    "file_exists": "the file is there already",
    "files_full": "the catalog is full: a volume has at most (page size - 32) / 48 files",
    "no_object": "no version has this identifier: `list FILE` tells the current ones, "
                 "`versions X` all of an object",
    "frozen": "a frozen version keeps its bytes: `derive` opens a current one from it, `drop` "
              "removes it",
    "current": "the version is a current one: `destroy` removes it, and `freeze` makes a frozen "
               "one of its bytes",
    "not_empty": "the file has objects: `destroy` them first",
    "has_versions": "no other version is derived from its older one: `drop` that one first; "
                    "`versions X` tells all",
    "no_scan": "no open scan has the name: `scan X as SCAN` opens one",
    "no_group": "no group of frames has the name: `group GROUP FRAMES RULE` makes one",
    "range": "the place is behind the end: `size X` tells the size",
    "too_large": "an object has at most 1,099,511,627,775 bytes",
    "too_many": "a run has at most 64 {0}: `close` a scan that is read, and share groups",
    "ids_spent": "the numbers of this volume are spent",
    "long_txn": "the transaction is full (at most 512 updates and 128 pages; it has {0} and {1}): "
                "`commit`, and go on in the next one",
    "full": "the line may need {1} {0}, and {2} are free: use a larger volume, or less in one "
            "line; what an open transaction replaced is free after its commit",
    "branches": "{0} versions are derived from it: `destroy` or `drop` all of these but one first",
    "busy": "another user's transaction is open, that of client {0}; until it ends others are "
            "answered `next`, `close` and `group` alone: try again, and keep transactions short",
}
"""What each refusal means, but `syntax`; {0} on are its values."""

FULL_AREAS = {"pages": "pages", "segs": "segment units"}


def reason_of(fault: Exception, path: str = "") -> str:
    """What a fault says: the reason, behind the file that the system names, else the path."""
    if isinstance(fault, OSError) and fault.strerror:
        if fault.filename is not None:
            path = os.fsdecode(fault.filename) or "''"
        return f"{path}: {fault.strerror}" if path else fault.strerror
    return f"{path}: {fault}" if path else str(fault)
