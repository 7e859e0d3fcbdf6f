"""A program whose calls on the files of a folder are noted, or fail: `disk_calls.c` is loaded before it."""
import errno
import os
import struct
import subprocess
import tempfile
from enum import IntEnum
from pathlib import Path

from lib import SCRIPTS, Skipped

HEAD = struct.Struct("<IIQqQ")


class Kind(IntEnum):
    OPENED, WRITTEN, CUT, RENAMED, UNLINKED, SYNCING, SYNCED, SENT, READ, FAILED = range(1, 11)


class Note:
    """One call: which thread made it, the number of its file or the port of its peer, where in the file it is, how long
    the file becomes or what came of it, and its bytes or paths."""

    def __init__(self, kind, thread, file, at, data):
        self.kind, self.thread, self.file, self.at, self.data = Kind(kind), thread, file, at, data


def notes_of(path):
    """The whole notes in a file, in the order of the calls."""
    data, place, found = path.read_bytes() if path.exists() else b"", 0, []
    while place + HEAD.size <= len(data):
        kind, thread, file, at, size = HEAD.unpack_from(data, place)
        place += HEAD.size + size
        if place <= len(data):
            found.append(Note(kind, thread, file, at, data[place - size:place]))
    return found


class DiskCalls:
    """The library, built in a folder of its own, and what has to be in the environment for it."""

    def __init__(self):
        self.room = tempfile.TemporaryDirectory(prefix="pazkindu-calls-")
        self.library, self.notes = Path(self.room.name, "disk_calls.so"), Path(self.room.name, "notes")
        source = SCRIPTS / "stress" / "disk_calls.c"
        try:
            subprocess.run(["cc", "-O2", "-shared", "-fPIC", "-o", self.library, source], check=True)
        except FileNotFoundError:
            raise Skipped("there is no C compiler") from None

    def settings(self, folder, failed=0, error=errno.EIO, lasts=False, killed=0):
        """The settings for a program that is to be started on this folder. The notes begin anew."""
        self.notes.unlink(missing_ok=True)
        return {"LD_PRELOAD": str(self.library), "DISK_FOLDER": os.path.realpath(folder), "DISK_NOTES": str(self.notes),
                "DISK_FAILED": str(failed), "DISK_ERROR": str(int(error)), "DISK_LASTS": str(int(lasts)),
                "DISK_KILLED": str(killed)}

    def noted(self):
        return notes_of(self.notes)

    def failed_call(self):
        """The name of the first call that failed, or nothing."""
        return next((note.data.decode() for note in self.noted() if note.kind == Kind.FAILED), None)
