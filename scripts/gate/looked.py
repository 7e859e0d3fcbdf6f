"""Kept sessions that `keep` looks at, as scripts/test tries them."""
import csv
import io
import os
import re
import tempfile
import time
from pathlib import Path

from gate.filed import kinds, same
from gate.prompted import ran
from kept import Kept, answers_of, kept_of
from lib import ONE, Process, demand, short

LOOKED = {}
SOON = 20
LINES = [b"x = 3;", b"x + 1;", b"1 + \\", b"x;", b"1 / 0;", b"function g(a) = a + x;", b"datatype p (int, [char]);",
         b"p(1, \"a : b, c\");", b":type g(1);", b":names", b"@ # not a line", b"", b"g(\"x\");"]
TIME = r"\d{4}-\d\d-\d\dT\d\d-\d\d-\d\dZ"
HEAD = ["user", "line", "answer", "value", "type", "work", "depth", "fault"]


def check(name):
    """A check of that name, whose function is given the program and a new folder of kept sessions."""
    def add(function):
        def within(program):
            with tempfile.TemporaryDirectory(prefix="pazkindu-test-") as room:
                folder = Path(room, "sessions")
                folder.mkdir()
                return function(program, folder)
        LOOKED[name] = within
        return function
    return add


def keep(program, *words):
    """What `keep` prints for these words, its status, and what it says on standard error."""
    begun = time.monotonic()
    out, status, complaint = ran(program, "keep", *map(str, words))
    took = time.monotonic() - begun
    demand(took < SOON, f"keep {words[0]} took {took:.1f} s")
    return out.decode("utf-8"), status, complaint


def contents(folder):
    """All that is in a folder: names, kinds and modes, and the bytes of files."""
    return {name: (kind, (folder / name).read_bytes() if kind.startswith("-") else b"")
            for name, kind in kinds(folder).items()}


def put(folder, user, kept, rest=b""):
    """Puts the file of a user there, with these bytes after its end."""
    (folder / user).write_bytes(kept.bytes() + rest)


@check("kept sessions are checked")
def checked(program, folder):
    """Each file is named with what comes back or why not, in order; other names are skipped; nothing is written."""
    whole = Kept(lines=LINES)
    put(folder, "ann", whole)
    put(folder, "bob", whole, b"x = 4;\n.")
    (folder / "cut").write_bytes(whole.bytes()[:-1])
    (folder / "dot").write_bytes(b"")
    (folder / "eve").write_bytes(whole.bytes().replace(b"pazkindu 1", b"pazkindu 2"))
    put(folder, "fay", Kept(lines=[b"1;", b":reset", b"2;"]))
    put(folder, "gil", Kept(lines=[b"1;", b"2;" + b" " * 70_000]))
    (folder / "hal").write_bytes(b">" * 1_200_001)
    (folder / "ida").mkdir()
    (folder / "jon").symlink_to(folder / "ann")
    os.mkfifo(folder / "kim")
    put(folder, "lea", Kept(base=100_000_001))
    for name in (".lock", "ann.new", "bob.2026-11-30T12-00-00Z", "bob.2026-11-30T12-00-00Z.2"):
        (folder / name).write_bytes(b"anything")
    for name in ("Ann", "1a", "notes.txt", "ann.", "a\x1b"):
        (folder / name).write_bytes(b"anything")
    Path(os.fsdecode(bytes(folder) + b"/\xff")).write_bytes(b"anything")
    before, size = contents(folder), len(whole.bytes())
    head = "doesn't come back: line 1 isn't a head of this version"
    wanted = [f"ann comes back: 13 lines, {size} bytes",
              f"bob comes back: 13 lines, {size + 8} bytes, of which 9 after the last line don't count",
              f"cut comes back: 13 lines, {size - 1} bytes, without the closed gate",
              "dot comes back: 0 lines, 0 bytes, without the closed gate",
              f"eve {head}", "fay doesn't come back: line 3 isn't stored by this version",
              "gil doesn't come back: line 3 isn't stored by this version",
              "hal can't be read: it has more than 1200000 bytes", "ida can't be read: it is a folder",
              "jon can't be read: it is a link", "kim can't be read: it is no regular file", f"lea {head}"]
    out, status, complaint = keep(program, "check", folder)
    same("check", out.split("\n"), [*wanted, ""])
    same("its status", status, 1)
    told = complaint.split("\n")
    same("its end", told[-1], "keep: 8 of 12 sessions can't be had")
    same("who is skipped", told[:-1],
         [f"keep: skipped {name}: no user has this name" for name in ('"1a"', '"Ann"', '"a\\u{1b}"', '"ann."', '"notes.txt"')]
         + ["keep: skipped 1 names that aren't UTF-8"])
    for line in wanted:
        user = line.split(" ")[0]
        lost = " comes back" not in line
        same(f"check {user}", keep(program, "check", folder, user),
             (line + "\n", int(lost), "keep: 1 of 1 sessions can't be had" if lost else ""))
    same("check of nobody", keep(program, "check", folder, "zed"),
         ("zed can't be read: there is no such file\n", 1, "keep: 1 of 1 sessions can't be had"))
    same("what is there", contents(folder), before)


@check("kept lines are shown")
def shown(program, folder):
    """Each has the answer that a batch gives it, from what the head says on; bytes that a terminal obeys are spelt."""
    put(folder, "ann", Kept(lines=LINES))
    answers = [answer.decode() for answer in answers_of(program, {"ann": LINES})["ann"]]
    pairs = "".join(f"> {line.decode()}\n{answer}\n" for line, answer in zip(LINES, answers))
    same("show", keep(program, "show", folder, "ann"), (pairs, 0, ""))
    put(folder, "bob", Kept(base=4, cleared=7, lines=[b"1 + 1;", b"2;", b"3;", b":budget"]))
    same("what is left of the work", keep(program, "show", folder, "bob")[0].split("\n")[1::2],
         [ONE[1], "it = 2 : int (work 1, depth 1)", "fault work (work 0)",
          "budget: work 0, elements 1 of 100000, lines 3 of 10000, bytes 10 of 1048576"])
    put(folder, "cut", Kept(lines=[b"1;", b"% \x1b[31m\xff %", "% käse\t1 %".encode(), b":reset", b"2;"]))
    same("lines that a terminal obeys", keep(program, "show", folder, "cut"),
         ("> 1;\nit = 1 : int (work 1, depth 1)\n> % \\x1b[31m\\xff %\nok\n> % käse\t1 %\nok\n", 1,
          "keep: cut doesn't come back: line 5 isn't stored by this version"))
    same("show of nobody", keep(program, "show", folder, "zed"), ("", 1, "keep: zed can't be read: there is no such file"))
    same("what is there", sorted(kinds(folder)), ["ann", "bob", "cut"])


def rows(text):
    return list(csv.reader(io.StringIO(text)))


@check("kept lines as CSV")
def tabulated(program, folder):
    """A row for each line, of whatever bytes, with the parts of its answer in cells of their own."""
    put(folder, "bob", Kept(lines=LINES))
    put(folder, "ann", Kept(lines=[b'"a""b", 1\r\x00\xff;', b"2;"]))
    put(folder, "cut", Kept(lines=[b"1;", b":reset"]))
    out, status, complaint = keep(program, "csv", folder)
    mine = rows(out)
    same("the head", mine[0], HEAD)
    same("a strange line", mine[1:3], [["ann", '"a""b", 1\\x0d\\x00\\xff;', "fault lexical at 10 (work 0)", *[""] * 4, "lexical"],
                                       ["ann", "2;", "it = 2 : int (work 1, depth 1)", "2", "int", "1", "1", ""]])
    answers = [answer.decode() for answer in answers_of(program, {"bob": LINES})["bob"]]
    same("the answers of bob", [row[:3] for row in mine[3:16]],
         [["bob", line.decode(), answer] for line, answer in zip(LINES, answers)])
    same("their cells", [row[3:] for row in mine[3:16]],
         [["3", "int", "1", "1", ""], ["4", "int", "3", "3", ""], [""] * 5, ["4", "int", "3", "3", ""],
          [*[""] * 4, "division"], ["", "int -> int", "", "", ""], ["", "(int, [char]) -> p", "", "", ""],
          ['p(1, "a : b, c")', "p", mine[10][5], mine[10][6], ""], ["", "int", "", "", ""], [""] * 5,
          [*[""] * 4, "lexical"], [""] * 5, [*[""] * 4, "type"]])
    same("what comes of cut", ([row[:2] for row in mine[16:]], status, complaint),
         ([["cut", "1;"]], 1, "keep: cut doesn't come back: line 3 isn't stored by this version\n"
          "keep: 1 of 3 sessions can't be had"))
    same("one user", rows(keep(program, "csv", folder, "bob")[0]), [HEAD, *mine[3:16]])


@check("a kept session begins anew")
def renewed(program, folder):
    """Its file is put aside under a new name, which isn't a user's, and not while the folder is served."""
    put(folder, "ann", Kept(lines=LINES))
    put(folder, "bob", Kept(base=5, cleared=9, lines=[b":reset"]))
    with Process(program, "--keep", str(folder), users=["ann"]) as process:
        demand(process.listens(), f"it doesn't listen: {short(process.complaint())}")
        same("renew while it is served", keep(program, "renew", folder, "ann"),
             ("", 1, "keep: ann can't begin anew: another process serves this folder"))
        with process.client("ann") as client:
            client.must("x;", "it = 3 : int (work 1, depth 1)")
        same("show while it is served", keep(program, "show", folder, "ann")[0].count("\n> "), len(LINES))
    now = kept_of(folder, "ann")
    old = []
    for user in ("ann", "bob", "ann", "ann"):
        if not (folder / user).exists():
            put(folder, user, Kept(lines=[b"1;"]))
        bytes_then = (folder / user).read_bytes()
        out, status, complaint = keep(program, "renew", folder, user)
        found = re.fullmatch(rf"{user} begins anew; the old file is {re.escape(str(folder))}/({user}\.{TIME}(\.\d+)?)\n", out)
        demand(found and (status, complaint) == (0, ""), f"renew {user}: {short(out)}, {status}, {short(complaint)}")
        demand(not (folder / user).exists(), f"the file of {user} is there")
        same(f"the old file of {user}", (folder / found[1]).read_bytes(), bytes_then)
        old.append(found[1])
    same("the names", len({*old}), 4)
    same("what the first one keeps", kept_of(folder, old[0]) == now, True)
    same("what is there", sorted(kinds(folder)), sorted([".lock", *old]))
    same("check", keep(program, "check", folder), ("", 0, ""))
    same("renew of nobody", keep(program, "renew", folder, "ann"),
         ("", 1, "keep: ann can't begin anew: there is no such file"))
    with Process(program, "--keep", str(folder), users=["ann"]) as process:
        demand(process.listens(), f"it doesn't listen: {short(process.complaint())}")
        with process.client("ann") as client:
            client.must("x;", "fault unknown at 0..1 (work 0)")


@check("kept sessions that can't be looked at")
def refused(program, folder):
    """A folder that isn't there is refused in words and not made, and so is what isn't one."""
    missing, file = folder / "none", folder / "file"
    file.write_bytes(b"")
    for place in (missing, file):
        for word in ("check", "csv"):
            same(f"{word} {place}", keep(program, word, place),
                 ("", 1, f"keep: can't use {place}\nthere is no such folder"))
        same(f"renew {place}", keep(program, "renew", place, "ann"),
             ("", 1, "keep: ann can't begin anew: there is no such folder"))
    for word in ("check", "csv", "show", "renew"):
        same(f"{word} Ann", keep(program, word, folder, "Ann"), ("", 2, "keep: bad name Ann"))
        same(f"{word} ../ann", keep(program, word, folder, "../ann"), ("", 2, "keep: bad name ../ann"))
    os.mkfifo(folder / "ann")
    same("renew of a pipe", keep(program, "renew", folder, "ann"),
         ("", 1, "keep: ann can't begin anew: it is no regular file"))
    with open("/dev/full", "wb") as full:
        for words in (("check", folder, "ann"), ("csv", folder)):
            _, status, complaint = ran(program, "keep", *map(str, words), stdout=full)
            same(f"{words[0]} to a full device", (status, complaint.split("\n")[-1]), (1, "keep: write fault"))
    same("what is there", sorted(kinds(folder)), [".lock", "ann", "file"])
