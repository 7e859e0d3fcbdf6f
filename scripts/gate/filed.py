"""The files of a prompt and of a service, as scripts/test tries them."""
import contextlib
import os
import stat
import subprocess
import tempfile
import time
from pathlib import Path

from gate.prompted import Terminal, ran, told
from lib import ONE, Process, demand, ending, prepared, short

FILES = {}
CLOSED = "standard input is no terminal, and `--files` isn't given"
REGULAR = "it is no regular file"
SOON = 5


def check(name):
    """A check of that name, whose function is given the program and a new folder."""
    def add(function):
        def within(program):
            with tempfile.TemporaryDirectory(prefix="pazkindu-test-") as room:
                return function(program, Path(room))
        FILES[name] = within
        return function
    return add


def same(what, mine, wanted):
    demand(mine == wanted, f"{what}: expected {short(str(wanted))}, and there came {short(str(mine))}")


def at(program, *lines, words=("--files",)):
    """What a prompt answers to these lines."""
    text = "".join(line + "\n" for line in lines).encode()
    return told(program, text, *words).decode("latin-1").split("\n")[:-1]


def save(program, path):
    """What a prompt answers that has `x = 2;` to save."""
    return at(program, "x = 2;", f":save {path}")[-1]


def kinds(room):
    """What lies in a folder: names, kinds and modes, links as such."""
    return {entry.name: stat.filemode(entry.lstat().st_mode) for entry in room.iterdir()}


def odd_places(room):
    """Places that are no regular files, each with why it can't be written, and with why it can't be read."""
    os.mkfifo(room / "pipe")
    (room / "folder").mkdir()
    for name, target in (("to pipe", "pipe"), ("to folder", "folder"), ("to nothing", "none")):
        (room / name).symlink_to(room / target)
    return [(room / "pipe", REGULAR), (room / "folder", "it is a folder"), (room / "to pipe", REGULAR),
            (room / "to folder", "it is a folder"), (room / "to nothing", "there is no such file"),
            ("/dev/null", REGULAR), ("/dev/full", REGULAR), ("/dev/tty", REGULAR)]


@check("files of a prompt")
def files(program, room):
    """What was kept is saved whole and loaded; a file that can't be is reported, and what was there stays."""
    path, other = room / "kept", room / "other"
    forms = ["function g(v) = {a * a : a in v};", "x = g([1, 2]);", "3;"]
    same("saved", at(program, *forms, "y;", f":save {path}")[-1], "saved: forms 3")
    same("the file", path.read_text(), "".join(form + "\n" for form in forms))
    same("a file that is loaded", at(program, f":load {path}", "x;")[-1], "it = [1, 4] : [int] (work 1, depth 1)")
    (room / "kept.new").write_text("mine")
    (room / "kept.1.new").write_text("mine as well")
    same("saved again", save(program, path), "saved: forms 1")
    same("the files", [(room / name).read_text() for name in ("kept", "kept.new", "kept.1.new")],
         ["x = 2;\n", "mine", "mine as well"])
    same("what lies there", sorted(kinds(room)), ["kept", "kept.1.new", "kept.new"])
    for word, name, why in (("load", room / "none", "there is no such file"), ("load", "", "there is no such file"),
                            ("save", room / "none" / "x", "there is no such file")):
        same(f"{word} {name}", at(program, "x = 2;", f":{word} {name}".strip(), "x;")[1:],
             [f"{word}: {why}: {name}", "it = 2 : int (work 1, depth 1)"])
    other.write_bytes(b"1;\n" * 6_000_000)
    same("a large file", at(program, f":load {other}")[-1], f"load: it has more than 16777216 bytes: {other}")


@check("files of a prompt that are no regular ones")
def odd_files(program, room):
    """A pipe was waited for, and a device was written: each is refused at once and stays as it is."""
    places = odd_places(room)
    before = kinds(room)
    for path, why in places:
        for word in ("load", "save"):
            begun = time.monotonic()
            same(f"{word} {path}", at(program, "x = 2;", f":{word} {path}", "x;")[1:],
                 [f"{word}: {why}: {path}", "it = 2 : int (work 1, depth 1)"])
            demand(time.monotonic() - begun < SOON, f"{word} {path} took {time.monotonic() - begun:.1f} s")
    same("what lies there", kinds(room), before)
    return f"{len(places)} places"


@check("what a saved file keeps")
def kept_rights(program, room):
    """An older file was replaced by one of another mode and owner: both are kept, or it is refused."""
    os.umask(0o077)
    path, link = room / "kept", room / "link"
    link.symlink_to("kept")
    same("saved", save(program, path), "saved: forms 1")
    same("the mode of a new file", kinds(room)["kept"], "-rw-------")
    for mode in (0o644, 0o640, 0o606, 0o755):
        path.chmod(mode)
        for name in (path, link):
            path.write_text("")
            same("saved", save(program, name), "saved: forms 1")
            same("the file", (path.read_text(), path.stat().st_mode & 0o7777), ("x = 2;\n", mode))
    same("what lies there", (sorted(kinds(room)), os.readlink(link)), (["kept", "link"], "kept"))
    if os.geteuid() == 0:
        os.chown(path, 65534, 65533)
        same("saved", save(program, path), "saved: forms 1")
        same("its owner and group", (path.stat().st_uid, path.stat().st_gid), (65534, 65533))
        return "with another owner"
    path.chmod(0o444)
    same("a file that may not be written", save(program, path), f"save: that isn't allowed: {path}")
    return "without another owner"


@check("a file that has no room")
def no_room(program, room):
    """Where the disk is full the file that a link leads to was lost: it stays, and nothing lies beside it."""
    path, link = room / "kept", room / "link"
    link.symlink_to(path)
    path.write_text("it was here before\n")
    for name in (path, link):
        # Python ignores SIGXFSZ, so a write beyond the limit fails as one to a full disk does.
        out, status, complaint = ran(program, "repl", "--files", text=f"x = 2;\n:save {name}\n".encode(),
                                     preexec_fn=prepared({"FSIZE": 3}, ()), restore_signals=False)
        demand(status == 0 and not complaint, f"{ending(status)} {short(complaint)}")
        same("what is told", out.decode().split("\n")[1], f"save: the system refuses it: {name}")
        same("the file", path.read_text(), "it was here before\n")
    same("what lies there", sorted(kinds(room)), ["kept", "link"])


@check("files without a terminal")
def piped_files(program, room):
    """Lines that were piped in could write and read files: they can't but with --files; in a terminal they may."""
    path = room / "kept"
    path.write_text("y = 5;\n")
    for name in (path, room / "none", "/dev/null"):
        same("save", at(program, "x = 2;", f":save {name}", words=())[-1], f"save: {CLOSED}: {name}")
        same("load", at(program, f":load {name}", "y;", words=()),
             [f"load: {CLOSED}: {name}", "fault unknown at 0..1 (work 0)"])
    same("the file", path.read_text(), "y = 5;\n")
    same("with --files", at(program, f":load {path}")[-1], "y = 5 : int (work 1, depth 1)")
    with Terminal(program, "repl") as it:
        it.shows("> ")
        it.type("x = 2;\n")
        it.shows("> ")
        it.type(f":save {path}\n")
        it.shows("saved: forms 1\n> ")
        it.type(":quit\n")
        it.ends()
    same("the file", path.read_text(), "x = 2;\n")


@check("the file of --stats")
def stats_file(program, room):
    """It was written over whatever was there: it is a regular file, or refused in words, and everybody may read it."""
    os.umask(0o077)
    mine, path = room / "mine", room / "stats"
    mine.write_text("mine")
    places = [place for place in odd_places(room) if "to " not in str(place[0])]
    (room / "link").symlink_to(mine)
    for name in ("stats.new", "stats.1.new"):
        (room / name).symlink_to(mine)
    before = kinds(room)
    for place, why in (*places, (room / "link", "it is a link"), (room / "to nothing", "it is a link"),
                       (room / "none" / "stats", "there is no such file")):
        with Process(program, "--stats", str(place)) as process:
            status, printed = process.ended(SOON)
            same(f"--stats {place}", (status, printed, process.complaint()),
                 (1, "", f"serve: can't write {place}\n{why}"))
    same("what lies there", kinds(room), before)
    with Process(program, "--stats", str(path), "--connections", "1") as process:
        demand(process.listens(), f"it doesn't listen: {short(process.complaint())}")
        same("what lies there", kinds(room), {**before, "stats": "-rw-r--r--"})
        path.unlink()
        os.mkfifo(path)
        with process.client("ann") as client:
            client.must(*ONE)
            client.leave()
        same("its status", process.ended(SOON)[0], 0)
        demand(stat.S_ISFIFO(path.lstat().st_mode), "a pipe is replaced")
    same("what it points to", mine.read_text(), "mine")


@check("want of memory is reported by the command")
def want_of_memory(program, room):
    """`serve` and `repl` said `batch: no memory` where memory was refused while their words were read."""
    found = []
    for words in (["repl"], ["serve", "--port", "0", "--workers", "0", "--connections", "1", "ann"], ["batch", "ann"]):
        for kilobytes in range(1_024, 2_048, 8):
            with contextlib.suppress(subprocess.TimeoutExpired):
                _, status, complaint = ran(program, *words, cwd=room, timeout=1,
                                           preexec_fn=prepared({"DATA": kilobytes << 10}, ()))
                wanted = [(0, ""), (1, f"{words[0]}: no memory"), (1, "")]
                demand((status, complaint) in wanted,
                       f"{words[0]} in {kilobytes} KB: {ending(status)} {short(complaint)}")
                found.append(complaint)
    demand(any(found), "memory was never refused")
    return f"{len(found) - found.count('')} times"
