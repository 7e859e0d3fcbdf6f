"""Kept sessions, as `serve --keep` leaves them in a folder: a file for each user, with the lines since the last reset.

A file has blocks: a gate, a line and an LF. An open gate, `>`, counts, and the first that isn't open ends what is read.
The first block is the head, `pazkindu 1 BASE CLEARED`: the work that was left at the last reset, and the lines that
were recorded until then.
"""
import os
import re
import stat
import subprocess
from pathlib import Path

WORK = 100_000_000
HEAD = re.compile(rb"pazkindu 1 (0|[1-9]\d*) (0|[1-9]\d*)")
NAME = re.compile(r"[a-z][a-z0-9]{0,15}")
USER_LINE = re.compile(rb"user [^ ]*")
TOLD_WORK = re.compile(rb"\(work (\d+)(?:, depth \d+)?\)$")
UNRECORDED = (b"fault long ", b"fault transcript ", b"fault memory ")


class NotKept(Exception):
    """Why a file or a folder is none of kept sessions."""


class Kept:
    """What is kept of a session."""

    def __init__(self, base=WORK, cleared=0, lines=()):
        self.base, self.cleared, self.lines = base, cleared, list(lines)

    def __eq__(self, other):
        return (self.base, self.cleared, self.lines) == (other.base, other.cleared, other.lines)

    def __str__(self):
        last = f", the last one {self.lines[-1][:80]!r}" if self.lines else ""
        return f"base {self.base}, cleared {self.cleared}, {len(self.lines)} lines{last}"

    def bytes(self):
        """The file that keeps this."""
        head = f"pazkindu 1 {self.base} {self.cleared}".encode()
        return b"".join(b">" + line + b"\n" for line in [head, *self.lines]) + b"."

    def then(self, said):
        """What is kept once these lines were said too, each with its answer."""
        base, cleared, lines, work = self.base, self.cleared, list(self.lines), 0
        for line, answer in said:
            told = TOLD_WORK.search(answer)
            work += int(told[1]) if told else 0
            if answer.startswith(b"reset: "):
                base, cleared, lines, work = base - work, cleared + len(lines) + 1, [], 0
            elif not answer.startswith(UNRECORDED):
                lines.append(line)
        return Kept(base, cleared, lines)


def blocks(data):
    """The lines of the blocks that count."""
    found, place = [], 0
    while data[place:place + 1] == b">" and (end := data.find(b"\n", place)) >= 0:
        found.append(data[place + 1:end])
        place = end + 1
    return found


def read(data):
    """What a file of these bytes keeps. One of no bytes, or of a closed gate alone, keeps a session that has just
    begun."""
    if data in (b"", b"."):
        return Kept()
    found = blocks(data)
    head = HEAD.fullmatch(found[0]) if found else None
    if not head:
        raise NotKept(f"it has no head `pazkindu 1 BASE CLEARED`, but begins with {data[:40]!r}")
    return Kept(int(head[1]), int(head[2]), found[1:])


def kept_of(folder, user):
    """What a folder keeps of a user; no file is a session that has just begun."""
    path = Path(folder, user)
    return read(path.read_bytes()) if os.path.lexists(path) else Kept()


def users_of(folder):
    """The users of whom a folder has a regular file, in the order of their names."""
    if not os.path.isdir(folder):
        raise NotKept("there is no such folder")
    names = os.listdir(folder)
    found = sorted(name for name in names
                   if NAME.fullmatch(name) and stat.S_ISREG(os.lstat(Path(folder, name)).st_mode))
    if names and not found and ".lock" not in names:
        raise NotKept("no file in it is named as a user, so it has no kept sessions")
    return found


def answers_of(program, said):
    """What a batch answers to the lines of each user, who all begin with an empty session and full work."""
    text = b"".join(b"user " + user.encode() + b"\n" + b"".join(sayable(line) + b"\n" for line in lines)
                    for user, lines in said.items())
    ran = subprocess.run([program, "batch", *said], input=text, stdout=subprocess.PIPE, check=True)
    told, place, answers = ran.stdout.split(b"\n"), 0, {}
    for user, lines in said.items():
        answers[user] = told[place + 1:place + 1 + len(lines)]
        place += 1 + len(lines)
    return answers


def sayable(line):
    """The line as a batch takes it for one of the session: it would seat another user by `user NAME`, and a blank at
    the end of that changes no answer."""
    return line + b" " if USER_LINE.fullmatch(line) else line
