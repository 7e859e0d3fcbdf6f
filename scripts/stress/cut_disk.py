"""A disk as the notes of calls make it, and what a power cut may leave of it.

What was written before a sync began that has ended is on the disk; what was written after that may be lost, or be
there, or be torn, each write for itself. So are names: what was created, renamed or removed is certain once the folder
was synced after it, and until then each such change has happened or not.
"""
import os
from pathlib import Path

from stress.disk_calls import Kind


class File:
    """What is certain of a file, and the changes after that, each with the number of its note."""

    def __init__(self, certain=b""):
        self.certain, self.changes = certain, []

    def sync(self, until):
        """What was changed before the note of this number is on the disk."""
        data = bytearray(self.certain)
        for number, change in self.changes:
            if number < until:
                change.do(data)
        self.certain = bytes(data)
        self.changes = [(number, change) for number, change in self.changes if number >= until]

    def seen(self):
        """What a read returns."""
        data = bytearray(self.certain)
        for _, change in self.changes:
            change.do(data)
        return bytes(data)

    def left(self, rng):
        """What a power cut may leave."""
        data, way = bytearray(self.certain), rng.choice(["lost", "done", "any", "any", "any"])
        for _, change in self.changes:
            if way == "done" or way == "any" and rng.random() < 0.3:
                change.do(data)
            elif way == "any":
                change.tear(data, rng)
        return bytes(data)


class Write:
    """Bytes that are written at a place."""

    def __init__(self, at, data):
        self.at, self.data = at, data

    def do(self, data):
        put(data, self.at, self.data)

    def tear(self, data, rng):
        """Nothing, the front, the back, each byte old or new, or the new length alone: zeros are past the old end."""
        way, size = rng.choice(["nothing", "front", "back", "mixed", "length"]), rng.randrange(len(self.data) + 1)
        old = bytes(data[self.at:self.at + len(self.data)]).ljust(len(self.data), b"\0")
        if way == "front":
            put(data, self.at, self.data[:size])
        elif way == "back":
            put(data, self.at + size, self.data[size:])
        elif way == "mixed":
            put(data, self.at, bytes(rng.choice(pair) for pair in zip(old, self.data)))
        elif way == "length":
            put(data, self.at + len(self.data), b"")


class Cut:
    """A file that is given another length."""

    def __init__(self, size):
        self.size = size

    def do(self, data):
        del data[self.size:]
        put(data, self.size, b"")

    def tear(self, data, rng):
        if rng.random() < 0.5:
            self.do(data)


def put(data, at, piece):
    """Puts bytes at a place, with zeros between the end and that place."""
    data.extend(bytes(max(0, at - len(data))))
    data[at:at + len(piece)] = piece


class Renaming:
    """A file gets a name, or another one, or loses it."""

    def __init__(self, file, old, new):
        self.file, self.old, self.new = file, old, new

    def do(self, names):
        if self.old and names.get(self.old) is self.file:
            del names[self.old]
        if self.new:
            names[self.new] = self.file


class Disk:
    """A folder: the files by their numbers, the names that are seen, and those that are certain."""

    def __init__(self, folder):
        self.folder, self.number, self.begun = os.path.realpath(folder), 0, {}
        self.certain = {entry.name: File(entry.read_bytes()) for entry in Path(folder).iterdir()}
        self.files = {os.stat(Path(folder, name)).st_ino: file for name, file in self.certain.items()}
        self.seen, self.changes = dict(self.certain), []

    def take(self, note):
        """Takes the next note."""
        self.number += 1
        if note.kind in TAKEN:
            TAKEN[note.kind](self, note)

    def name(self, path):
        return os.path.basename(path.decode())

    def rename(self, file, old, new):
        change = Renaming(file, old, new)
        change.do(self.seen)
        self.changes.append((self.number, change))

    def opened(self, note):
        if note.at == 1:
            self.files[note.file] = File()
            self.rename(self.files[note.file], None, self.name(note.data))
        elif note.at == 2:
            self.files[note.file].changes.append((self.number, Cut(0)))

    def written(self, note):
        self.files[note.file].changes.append((self.number, Write(note.at, note.data)))

    def cut(self, note):
        self.files[note.file].changes.append((self.number, Cut(note.at)))

    def renamed(self, note):
        old, new = (self.name(path) for path in note.data.split(b"\n"))
        self.rename(self.seen[old], old, new)

    def unlinked(self, note):
        name = self.name(note.data)
        self.rename(self.seen[name], name, None)

    def syncing(self, note):
        self.begun[note.thread] = self.number

    def synced(self, note):
        until = self.begun.pop(note.thread)
        if note.at != 0:
            return
        if note.data.decode() != self.folder:
            self.files[note.file].sync(until)
            return
        for number, change in self.changes:
            if number < until:
                change.do(self.certain)
        self.changes = [(number, change) for number, change in self.changes if number >= until]

    def contents(self):
        """What is seen in each file."""
        return {name: file.seen() for name, file in self.seen.items()}

    def left(self, rng):
        """What a power cut may leave: the names, each with its bytes."""
        names, way = dict(self.certain), rng.choice(["lost", "done", "any"])
        for _, change in self.changes:
            if way == "done" or way == "any" and rng.random() < 0.5:
                change.do(names)
        return {name: file.left(rng) for name, file in names.items()}


TAKEN = {Kind.OPENED: Disk.opened, Kind.WRITTEN: Disk.written, Kind.CUT: Disk.cut, Kind.RENAMED: Disk.renamed,
         Kind.UNLINKED: Disk.unlinked, Kind.SYNCING: Disk.syncing, Kind.SYNCED: Disk.synced}
