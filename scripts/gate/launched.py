"""The launcher, the release and the gate, as scripts/test tries them: in a small repository of two crates, whose
release is the program that is tested. In the gate a script that does nothing takes the place of what proves.
"""
import hashlib
import os
import re
import shutil
import subprocess
import tempfile
import time
from pathlib import Path

from gate.prompted import Terminal
from lib import PATIENCE, TOP, Skipped, demand

BASE = "/usr/local/sbin:/usr/sbin:/sbin:/usr/bin:/bin"
SAID = b"user ann\n2 * 3 + 1;\n"
TOLD = "user ann\nit = 7 : int (work 5, depth 5)\n"
NOT_HERE = "the release is for x86-64 Linux with glibc"
CRATES = "# two crates\nnesl_cli: clap\nnesl_server may_wait=3: nesl_cli clap\nnesl_other: nesl_cli\n"
SCRIPTS = ["sources", "release", "gate/check_release", "gate/timed"]
VERSION = "rattle-kit-0 logic 0"
NOTHING = "#!/bin/sh\n"
LAUNCHER = {}


def check(name):
    def add(function):
        LAUNCHER[name] = function
        return function
    return add


class Checkout:
    """A small repository in a folder that is removed in the end, with a folder of commands that is on the path."""

    def __init__(self, program, name="repository", released=True):
        self.program, self.room = program, tempfile.TemporaryDirectory(prefix="pazkindu-test-")
        self.top, self.commands = Path(self.room.name, name), Path(self.room.name, "commands")
        for folder in (self.top / "scripts" / "gate", self.commands):
            folder.mkdir(parents=True)
        for name in ["pazkindu", "HANDLES", *[f"scripts/{name}" for name in SCRIPTS]]:
            shutil.copy(TOP / name, self.top / name)
        self.write("crates.txt", CRATES)
        for crate, file in (("nesl_cli", "lib.rt"), ("nesl_server", "main.rt"), ("nesl_other", "lib.rt")):
            self.write(f"crates/{crate}/src/{file}", "// A source.\n")
        if released:
            self.release()

    def __enter__(self):
        return self

    def __exit__(self, *_):
        self.room.cleanup()

    def write(self, name, text, mode=0o644):
        (self.top / name).parent.mkdir(parents=True, exist_ok=True)
        (self.top / name).write_text(text)
        (self.top / name).chmod(mode)

    def script(self, name, text):
        self.write(f"scripts/{name}", NOTHING + text, 0o755)

    def put(self, folder, name, data, kit=VERSION):
        """Puts a program there, with its sum and its sources."""
        (self.top / folder).mkdir(parents=True, exist_ok=True)
        (self.top / folder / name).write_bytes(data)
        (self.top / folder / name).chmod(0o755)
        self.write(f"{folder}/SHA256SUMS", f"{hashlib.sha256(data).hexdigest()}  {name}\n")
        self.write(f"{folder}/SOURCES", f"{self.runs('scripts/sources')[0]}kit {kit}\n")

    def release(self):
        self.put("release", "pazkindu", Path(self.program).read_bytes())

    def built(self):
        self.put("crates/nesl_server/out", "nesl_server", Path(self.program).read_bytes())

    def must(self, wanted, *words, lines=(), command=None, front=(), **settings):
        """The launcher answers this to SAID with status 0, or ends with that status; standard error has these lines."""
        words = [*front, command or self.top / "pazkindu", *(words or ["batch", "ann"])]
        ran = subprocess.run(words, input=SAID, stdout=subprocess.PIPE, stderr=subprocess.PIPE, cwd=self.room.name,
                             env={"PATH": BASE, **settings}, timeout=PATIENCE, check=False)
        answer, told = ran.stdout.decode("latin-1"), ran.stderr.decode("latin-1").splitlines()
        right = (wanted, 0) if isinstance(wanted, str) else ("", wanted)
        demand((answer, ran.returncode) == right, f"expected {right}, and got {(answer, ran.returncode)}, with {told}")
        demand(len(told) == len(lines) and all(some in line for some, line in zip(lines, told)),
               f"expected on standard error {list(lines)}, and got {told}")

    def runs(self, script, path=None):
        """What a script writes, and its status."""
        path = path or f"{self.commands}:{os.environ['PATH']}"
        ran = subprocess.run([self.top / script], stdin=subprocess.DEVNULL, stdout=subprocess.PIPE,
                             stderr=subprocess.STDOUT, env={**os.environ, "PATH": path}, timeout=PATIENCE, check=False)
        return ran.stdout.decode("latin-1"), ran.returncode

    def ends(self, script, verdict, *texts, without=()):
        """A script ends in this verdict, and writes these texts and not those."""
        said, status = self.runs(script)
        demand(said.splitlines()[-1] == verdict and (status == 0) == verdict.endswith(" 0 failed"),
               f"expected {verdict}, and got status {status} and {said}")
        wrong = [text for text in texts if text not in said] + [text for text in without if text in said]
        demand(not wrong, f"what it writes of {wrong} isn't as it should be: {said}")


@check("the release starts")
def starts(program):
    """At once, and silently; words and statuses are the program's."""
    with Checkout(program) as it:
        it.must(TOLD)
        it.must(2, "batch", "Ann", lines=["roster: bad name Ann"])
        begun = time.monotonic()
        it.must(TOLD)
        return f"{(time.monotonic() - begun) * 1000:.0f} ms"


@check("Ctrl-C at a prompt")
def interrupted(program):
    """It drops the line that is being typed, and the session goes on."""
    with Checkout(program) as it, Terminal(str(it.top / "pazkindu"), "repl") as prompt:
        prompt.shows("\n> ")
        prompt.type("x = 1;\n")
        prompt.shows("x = 1 : int (work 1, depth 1)\n> ")
        prompt.type("y = \x03x + 1;\n")
        prompt.shows("it = 2 : int (work 3, depth 3)\n> ")
        prompt.type("\x03:quit\n")
        prompt.ends()


@check("addresses are limited")
def limited(program):
    """To four fifths of the memory, so that growth is refused and nothing is killed; a lower limit stays."""
    shown = NOTHING + "[ $(ulimit -S -v) -le %d ] && [ $(ulimit -S -v) -ge 2097152 ] && [ $(ulimit -S -s) = 1024 ] && " \
        "echo $MALLOC_TOP_PAD_ $MALLOC_ARENA_MAX $GLIBC_TUNABLES\n"
    kilobytes = os.sysconf("SC_PHYS_PAGES") * os.sysconf("SC_PAGE_SIZE") // 1024
    with Checkout(program) as it:
        it.put("release", "pazkindu", (shown % max(kilobytes // 5 * 4, 2 << 20)).encode())
        it.must("4194304 4\n", "serve", "ann")
        it.must("8388608 4 glibc.malloc.hugetlb=1:glibc.malloc.tcache_count=64\n")
        it.must("1 2 3\n", MALLOC_TOP_PAD_="1", MALLOC_ARENA_MAX="2", GLIBC_TUNABLES="3")
        it.put("release", "pazkindu", b"#!/bin/sh\nulimit -S -v\n")
        it.must("3000000\n", front=["sh", "-c", 'ulimit -S -v 3000000 && exec "$0" "$@"'])


@check("wherever it is")
def places(program):
    """In a path with blanks and other signs, by links, from anywhere, and without sources."""
    with Checkout(program, name="a path with 'blanks', $signs and *") as it:
        shutil.rmtree(it.top / "crates")
        shutil.rmtree(it.top / "scripts")
        os.symlink(it.top / "pazkindu", Path(it.room.name, "link"))
        os.symlink("link", Path(it.room.name, "again"))
        for command in (None, Path(it.room.name, "again"), "./link", f"./{it.top.name}/pazkindu"):
            it.must(TOLD, command=command)
        by_path = ["env", "-C", it.top, f"PATH={it.top}:{BASE}"]
        it.must(TOLD, "pazkindu", "batch", "ann", command="env", front=by_path)
        it.must(TOLD, "pazkindu", "batch", "ann", command="bash", front=["env", "-C", it.top])


@check("no release that starts")
def no_release(program):
    """A line says which machines it is for; PAZKINDU names another program."""
    with Checkout(program, released=False) as it:
        it.must(1, lines=["No such file", NOT_HERE])
        it.must(TOLD, PAZKINDU=program)
        it.put("release", "pazkindu", b"\x7fELF of another machine")
        it.must(1, lines=["cannot execute", "pazkindu: ", NOT_HERE])


@check("the gate compares the release")
def gate_compares(program):
    """With the program that was built, if it is of the same sources and kit; others are reported, and pass."""
    data, mend = Path(program).read_bytes(), "scripts/release, and commit release/"
    script = "scripts/gate/check_release"
    with Checkout(program, released=False) as it:
        it.built()
        it.ends(script, "0 passed, 0 failed", "there is none")
        it.release()
        it.ends(script, "2 passed, 0 failed", "byte for byte")
        it.put("release", "pazkindu", data + b"\n")
        it.ends(script, "1 passed, 1 failed", "NOT SO", mend)
        (it.top / "release/pazkindu").write_bytes(data)
        it.ends(script, "1 passed, 1 failed", "NOT SO: release/SHA256SUMS", mend)
        it.put("release", "pazkindu", data + b"\n", kit="rattle-kit-1 logic 1")
        it.ends(script, "1 passed, 0 failed", "built with kit rattle-kit-1 logic 1", f"this is kit {VERSION}")
        it.write("crates/nesl_cli/src/lib.rt", "new\n")
        it.built()
        it.ends(script, "1 passed, 0 failed", "it is of older sources")
        (it.top / "release/SOURCES").unlink()
        it.ends(script, "0 passed, 1 failed", mend)


@check("how a release is made")
def makes_release(program):
    """Of what was built from the sources as they are, and of nothing else."""
    with Checkout(program, released=False) as it:
        demand(it.runs("scripts/release")[1] == 1, "there is nothing to make it of")
        it.built()
        said, status = it.runs("scripts/release")
        names = sorted(path.name for path in (it.top / "release").iterdir())
        demand(status == 0 and names == ["SHA256SUMS", "SOURCES", "pazkindu"], f"it has {names}: {said}")
        it.ends("scripts/gate/check_release", "2 passed, 0 failed")
        it.must(TOLD)
        it.write("crates/nesl_cli/src/lib.rt", "new\n")
        said, status = it.runs("scripts/release")
        demand(status == 1 and "the sources have changed" in said, said)
        it.built()
        (it.top / "crates/nesl_server/out/nesl_server").write_bytes(b"other")
        said, status = it.runs("scripts/release")
        demand(status == 1 and "is not what the gate built" in said, said)


@check("the gate, part by part")
def gate(program):
    """Its verdict is the sum of its parts. If one fails the gate fails, and what depends on that part isn't tried."""
    proves = f"cp {program} crates/nesl_server/out/nesl_server; echo 2 passed, 0 failed\n"
    with Checkout(program) as it:
        it.write(".ci/run", (TOP / ".ci" / "run").read_text(), 0o755)
        (it.top / "crates/nesl_server/out").mkdir()
        (it.commands / "rt").write_text(f"{NOTHING}echo {VERSION}\n")
        (it.commands / "rt").chmod(0o755)
        for name in re.findall(r"\bscripts/(\S+)", (TOP / ".ci" / "run").read_text()):
            if name not in SCRIPTS:
                it.script(name, "")
        it.script("gate/prove", proves)
        it.script("test", "echo 5 passed, 0 failed\n")
        it.ends(".ci/run", "9 passed, 0 failed", "byte for byte", f"kit {VERSION}")
        it.put("release", "pazkindu", b"other")
        it.ends(".ci/run", "8 passed, 1 failed", "NOT SO: release/pazkindu is", "5 passed")
        it.release()
        it.script("test", "echo 4 passed, 1 failed\nexit 1\n")
        it.ends(".ci/run", "8 passed, 1 failed")
        it.script("test", "exit 3\n")
        it.ends(".ci/run", "4 passed, 1 failed")
        for more, verdict, text in (("exit 1\n", "2 passed, 1 failed", "the release is not compared"),
                                    ("echo new >>crates/nesl_cli/src/lib.rt\n", "2 passed, 1 failed",
                                     "the sources have changed while the gate ran")):
            it.script("gate/prove", proves + more)
            it.ends(".ci/run", verdict, text, without=["byte for byte"])


@check("the gate without the kit")
def gate_without_kit(program):
    """Two lines say what is missing, at once."""
    if shutil.which("rt", path=BASE):
        raise Skipped(f"the kit is in one of {BASE}")
    with Checkout(program) as it:
        it.write(".ci/run", (TOP / ".ci" / "run").read_text(), 0o755)
        said, status = it.runs(".ci/run", path=BASE)
        demand(status == 1 and len(said.splitlines()) == 2 and "the Rattle kit" in said, f"status {status} and {said}")


@check("the verdict of the gate")
def verdict(_):
    """It is the sum of its parts, alone on the last line."""
    said = "one\n3 passed, 0 failed\ntwo\n2 passed, 1 failed (not this)\n40 passed, 2 failed\nuser 0m1s\n"
    ran = subprocess.run([TOP / "scripts" / "gate" / "timed"], input=said.encode(), stdout=subprocess.PIPE, check=True)
    lines = ran.stdout.decode().splitlines()
    demand(lines[-1] == "43 passed, 2 failed", f"it ends in {lines[-1]}")
    demand([re.sub(r"^ *\d+  ", "", line) for line in lines[:-1]] == said.splitlines(), f"it passes on {lines}")
