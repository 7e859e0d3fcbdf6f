"""What several scripts share: the repository, programs over its crates, another program, and the program at work.

A script in a folder puts this folder on the path first. Modules that are in folders are imported with the folder's
name, so that each is one module. What a script starts is killed by whoever runs it, so nothing here waits for a program
that doesn't end.
"""
import concurrent.futures
import contextlib
import functools
import importlib.machinery
import importlib.util
import itertools
import os
import re
import resource
import select
import shutil
import signal
import socket
import subprocess
import sys
import tempfile
import time
from pathlib import Path

SCRIPTS = Path(__file__).resolve().parent
TOP = SCRIPTS.parent
PAZKINDU = str(TOP / "pazkindu")
BUILT = str(TOP / "crates" / "nesl_server" / "out" / "nesl_server")
TOLD = 3000  # bytes of what a command that failed has said

PATIENCE = 20
SHOWN = 120
WORKERS = 2
LEAST = -(2**63) + 1
ONE = ("1 + 1;", "it = 2 : int (work 3, depth 3)")


# Words and scripts.

def given_words(doc):
    """The words of the command line. `--help` prints what they may be, and ends."""
    if sys.argv[1:2] in (["-h"], ["--help"]):
        print(doc.strip())
        sys.exit()
    return sys.argv[1:]


def program_of(words, place=0):
    """The program that a word names, or else this repository's."""
    return os.path.abspath(words[place]) if len(words) > place else PAZKINDU


def option(words, name, otherwise=None):
    """The word after a name, which are both taken out."""
    if name not in words[:-1]:
        return otherwise
    place = words.index(name)
    _, value = words[place:place + 2]
    del words[place:place + 2]
    return value


@functools.cache
def loaded(name):
    """The script of that name, with its folder, as a module."""
    loader = importlib.machinery.SourceFileLoader(name.replace("/", "_"), str(SCRIPTS / name))
    module = importlib.util.module_from_spec(importlib.util.spec_from_loader(loader.name, loader))
    sys.dont_write_bytecode = True
    loader.exec_module(module)
    return module


# The crates, and programs over them.

def crates():
    """The crates of crates.txt in its order: each with its line."""
    lines = (TOP / "crates.txt").read_text(encoding="utf-8").splitlines()
    return {line.split(":")[0].split()[0]: line for line in lines if ":" in line and not line.startswith("#")}


def standing(uses):
    """These crates and those of this repository that they are built on, lowest first: each with its line."""
    listed, wanted, found = crates(), list(uses), set()
    below = {name: line.split(":", 1)[1].split() for name, line in listed.items()}
    named = {*listed, *itertools.chain(*below.values())}
    while wanted:
        name = wanted.pop()
        if name not in named:
            sys.exit(f"crates.txt has no {name}")
        if name in listed and name not in found:
            found.add(name)
            wanted += below[name]
    return {name: line for name, line in listed.items() if name in found}


def made_crate(folder, name, uses, text, keeps=False):
    """Makes a program of this text over the crates that it uses, in a folder of its own, where what they are built on
    is copied; with `keeps`, what their checks kept in out/ is used again. Answers the crate's folder."""
    below = standing(uses.split())
    left = None if keeps else shutil.ignore_patterns("out")
    for one in below:
        shutil.copytree(TOP / "crates" / one, Path(folder, "crates", one), symlinks=True, ignore=left)
    shutil.copy(TOP / "HANDLES", folder)
    crate = Path(folder, "crates", name)
    (crate / "src").mkdir(parents=True)
    (crate / "src" / "main.rt").write_text(text, encoding="utf-8")
    Path(folder, "crates.txt").write_text("\n".join([*below.values(), f"{name}: {uses}", ""]), encoding="utf-8")
    subprocess.run(["git", "init", "-q", "."], cwd=folder, check=True)
    return crate


def output(words, folder=None, text=""):
    """What a command says to this text, which it has to end well."""
    ran = subprocess.run(words, cwd=folder, input=text, stdout=subprocess.PIPE, stderr=subprocess.PIPE,
                         encoding="latin-1", check=False)
    if ran.returncode != 0:
        sys.exit(f"{words[0]} ended with status {ran.returncode}: {(ran.stdout + ran.stderr)[-TOLD:]}")
    return ran.stdout


def printed(name, uses, text):
    """The lines that a program of this text prints, which `rt run` proves before."""
    with tempfile.TemporaryDirectory() as folder:
        crate = made_crate(folder, name, uses, text, keeps=True)
        output(["rt", "fmt"], crate)
        return output(["rt", "run"], crate).splitlines()


def written(folder, cases):
    """Writes each case, by its name, as a file of this folder."""
    os.makedirs(folder, exist_ok=True)
    for name, text in cases.items():
        Path(folder, name).write_bytes(text if isinstance(text, bytes) else text.encode())
    return str(folder)


def tried(crate, folder, cases, seconds=60):
    """The lines that the program of a crate prints for each of these texts, each in this number of seconds: it is built
    once, without a proof."""
    cases = {f"{place:06}": text for place, text in enumerate(cases)}
    cases = written(Path(folder, "cases"), cases)
    return output(["rt", "try", "--steps", "1", "--seconds", str(seconds), "--cases", cases], crate).split("\n")


class Refusing:
    """The program of a crate of tests, as it was built last, of which each run is refused the request for memory of
    this number, if it makes that many. `refused_request.c` is loaded before it, which `cc` compiles."""

    def __init__(self, crate, request, seconds):
        self.program, self.seconds = TOP / "crates" / crate / "out" / crate, seconds
        if not self.program.is_file():
            sys.exit(f"{crate} isn't built: `rt ci` proves and builds all")
        self.folder = tempfile.TemporaryDirectory()
        shim = Path(self.folder.name, "refused_request.so")
        source = SCRIPTS / "stress" / "refused_request.c"
        subprocess.run(["cc", "-O2", "-shared", "-fPIC", "-o", shim, source], check=True)
        self.environment = {"LD_PRELOAD": str(shim), "REFUSED_REQUEST": str(request)}

    def run(self, text):
        """The status of a run and the lines that it writes, or `None` where it isn't over in time. A run that a signal
        ends, ends the script."""
        try:
            ran = subprocess.run([self.program], input=text.encode(), env=self.environment, stdout=subprocess.PIPE,
                                 stderr=subprocess.DEVNULL, timeout=self.seconds, check=False)
        except subprocess.TimeoutExpired:
            return None
        if ran.returncode < 0:
            sys.exit(f"signal {-ran.returncode} ended a run of:\n{text[:TOLD]}")
        return ran.returncode, ran.stdout.decode("latin-1").removesuffix("\n").split("\n")

    def runs(self, cases):
        """What becomes of each case, by its name, with as many runs at a time as there are processors."""
        with concurrent.futures.ThreadPoolExecutor(os.cpu_count()) as pool:
            return dict(zip(cases, pool.map(self.run, cases.values())))


# The rows of nesl_tests_runs.

class Row:
    """A row with the lines of its answer, and the title that it is under."""

    def __init__(self, title, line):
        self.title, self.line, self.answer = title, line, []

    def said(self):
        """The text that is sent, or None where the row is a directive."""
        return self.line[2:] if self.line.startswith(">") else None

    def lines(self):
        return [self.line, *self.answer]


def is_row(line):
    return line == ">" or line.startswith("> ") or line[:1] in ("@", "=", "!", "?")


def stored_rows(part):
    """The rows of a part of nesl_tests_runs; the head of that crate's `src/rows.rt` says how they are written."""
    text = (TOP / "crates" / "nesl_tests_runs" / "stdin").read_bytes().decode("utf-8")
    lines = dict(one.split("\n", 1) for one in ("\n" + text).split("\n== ")[1:])[part].split("\n")
    rows, title = [], ""
    for line in lines:
        if is_row(line):
            rows.append(Row(title, line))
        elif line.startswith("% "):
            title = line[2:]
        elif line:
            rows[-1].answer.append(line)
    return rows


def missed(lines):
    """The rows that nesl_tests_runs or nesl_tests_talks writes as missed, each with the lines that it got as its
    answer; and the lines that count the rows of each part."""
    rows, counts = [], []
    for line in lines:
        if line.startswith("+ "):
            rows[-1][1].append(line[2:])
        elif re.fullmatch(r".*: \d+ rows hold, \d+ missed", line):
            counts.append(line)
        elif is_row(line) and not line.startswith(("@ ", "@by ")):
            rows.append((line, []))
    return rows, counts


# Another program, with which this one is compared.

class Spoken:
    """A program that answers each line with one, a line at a time, so that the next line knows what was answered."""

    def __init__(self, words):
        self.program = subprocess.Popen(words, stdin=subprocess.PIPE, stdout=subprocess.PIPE)

    def reply(self, line):
        self.program.stdin.write(line.encode("latin-1") + b"\n")
        self.program.stdin.flush()
        return self.program.stdout.readline().decode("latin-1").rstrip("\n")

    def end(self, rest):
        """What is answered to a rest without a line end, after which the program ends."""
        self.program.stdin.write(rest.encode("latin-1"))
        self.program.stdin.close()
        replies = self.program.stdout.read().decode("latin-1")
        self.program.wait()
        return replies.rstrip("\n")


def compared(words, doc, count):
    """The other program that the words name, how many lines or calls are generated, and the seed."""
    if not words:
        sys.exit(doc)
    numbers = [int(word) for word in words[1:3]]
    return os.path.abspath(words[0]), *numbers, *[count, 1][len(numbers):]


def roomy(reference, *users, work=10**12):
    """How another program is called for a batch of these users, without forms on several lines: a line has this work,
    and no other limit is met."""
    limits = dict.fromkeys(["line-work", "session-work", "elements", "transcript-lines", "transcript-bytes"], 10**12)
    limits["line-work"] = work
    return [reference, "--stage", "base", "batch", *[word for name, most in limits.items() for word in
                                                     (f"--{name}", str(most))], *users]


# What has to hold of the program.

class Failed(Exception):
    """What had to hold, and didn't."""


class Skipped(Exception):
    """Why a case can't run here."""


def judge(wrong):
    """Fails where something was wrong, and reports the first of it."""
    if wrong:
        more = f" (and {len(wrong) - 3} more)" if len(wrong) > 3 else ""
        raise Failed("; ".join(str(one) for one in wrong[:3]) + more)


def demand(holds, why):
    if not holds:
        raise Failed(why)


def short(text):
    text = text if isinstance(text, str) else text.decode("latin-1")
    return repr(text if len(text) <= SHOWN else f"{text[:SHOWN // 2]} .. {text[-SHOWN // 2:]} ({len(text)} bytes)")


def ending(status):
    """How a process ended, in words."""
    return f"killed by {signal.Signals(-status).name}" if status < 0 else f"status {status}"


def compare(said, told):
    """Each line was given the answer that is wanted, where said has pairs of a line and its answer."""
    for index, (line, wanted) in enumerate(said):
        mine = told[index] if index < len(told) else "(nothing)"
        demand(mine == wanted, f"{short(line)} is answered {short(mine)} and not {short(wanted)}")
    demand(len(told) == len(said), f"there are {len(told)} answers to {len(said)} lines")


def names(count):
    return [f"u{place}" for place in range(count)]


def long_line(count):
    """A line whose answer has 22 bytes for each of its numbers, and that answer."""
    return (f"dist({LEAST}, {count});",
            f"it = [{', '.join([str(LEAST)] * count)}] : [int] (work {count + 5}, depth 5)")


# The program at work.

def free_port():
    with socket.socket() as taken:
        taken.bind(("127.0.0.1", 0))
        return taken.getsockname()[1]


def available_megabytes():
    with open("/proc/meminfo", encoding="ascii") as file:
        rows = dict(line.split(":") for line in file)
    return int(rows["MemAvailable"].split()[0]) >> 10


def prepared(limits, closed):
    """What a process does to itself before it becomes the program: its limits, and descriptors that it closes."""
    def prepare():
        with contextlib.suppress(OSError), open("/proc/self/oom_score_adj", "w", encoding="ascii") as file:
            file.write("1000")
        for number in closed:
            os.close(number)
        for kind, most in limits.items():
            resource.setrlimit(getattr(resource, f"RLIMIT_{kind}"), (most, most))
    return prepare


def started(words, limits=None, closed=(), settings=None, stderr=None):
    """A process under limits, with some descriptors closed, and with more settings in its environment."""
    return subprocess.Popen(words, stdin=subprocess.DEVNULL, stdout=subprocess.PIPE, stderr=stderr,
                            preexec_fn=prepared(limits or {}, closed), env={**os.environ, **(settings or {})})


class Process:
    """The program as a service, which need not come as far as to listen."""

    def __init__(self, program, *words, users=("ann",), port=0, workers=WORKERS, errors=None, **start):
        front = [program] if isinstance(program, str) else program
        words = [*front, "serve", "--port", str(port), "--workers", str(workers), *words, *users]
        self.errors = tempfile.TemporaryFile()
        self.run = started(words, stderr=errors or self.errors, **start)
        self.port = port

    def __enter__(self):
        return self

    def __exit__(self, *_):
        self.run.kill()
        self.run.wait()

    def first_line(self, seconds=PATIENCE):
        """What it prints first: nothing where it ends before."""
        demand(select.select([self.run.stdout], [], [], seconds)[0], f"nothing was printed in {seconds} s")
        return self.run.stdout.readline().decode("latin-1").rstrip("\n")

    def listens(self, seconds=PATIENCE):
        """Whether it begins to listen, or else ends."""
        first = self.first_line(seconds)
        if first.startswith("listening on 127.0.0.1:"):
            self.port = int(first.rsplit(":", 1)[1])
            return True
        demand(not first, f"it began with {short(first)}")
        return False

    def complaint(self):
        """All that was written to standard error."""
        self.errors.seek(0)
        return self.errors.read().decode("latin-1").strip()

    def ended(self, seconds=PATIENCE):
        """The status, and the rest of what was printed, once it has ended by itself."""
        try:
            status = self.run.wait(seconds)
        except subprocess.TimeoutExpired:
            raise Failed(f"it didn't end within {seconds} s") from None
        return status, self.run.stdout.read().decode("latin-1").strip()

    def must_live(self):
        status = self.run.poll()
        demand(status is None, f"the process ended: {ending(status or 0)} {short(self.complaint()[:SHOWN])}")

    def client(self, user=None, **how):
        return Client(self.port, user, **how)

    def megabytes(self, row):
        """A row of memory that the system keeps of the process, as VmRSS or VmHWM."""
        with open(f"/proc/{self.run.pid}/status", encoding="ascii") as file:
            return next(int(line.split()[1]) for line in file if line.startswith(row + ":")) / 1024

    def descriptors(self):
        return len(os.listdir(f"/proc/{self.run.pid}/fd"))

    def processor_seconds(self):
        with open(f"/proc/{self.run.pid}/stat", encoding="ascii") as file:
            ticks = file.read().rsplit(")", 1)[1].split()[11:13]
        return sum(int(tick) for tick in ticks) / os.sysconf("SC_CLK_TCK")


class Service(Process):
    """The program as a service that listens, and that still has to live at the end, unless it may end by itself."""

    def __init__(self, *words, may_end=False, **how):
        super().__init__(*words, **how)
        self.may_end = may_end

    def __enter__(self):
        if not self.listens():
            status, _ = self.ended()
            raise Failed(f"it doesn't listen: {ending(status)} {short(self.complaint()[:SHOWN])}")
        return self

    def __exit__(self, kind, *rest):
        try:
            if not self.may_end and (kind is None or issubclass(kind, (Failed, OSError))):
                self.must_live()
        finally:
            super().__exit__(kind, *rest)


class Client:
    """A connection, which may be seated at once; the system keeps about `receive` bytes that it hasn't taken yet."""

    def __init__(self, port, user=None, wait=PATIENCE, receive=None, source=None):
        self.socket = socket.socket()
        self.socket.settimeout(wait)
        if receive:
            self.socket.setsockopt(socket.SOL_SOCKET, socket.SO_RCVBUF, receive)
        self.socket.setsockopt(socket.IPPROTO_TCP, socket.TCP_NODELAY, 1)
        if source:
            self.socket.bind((source, 0))
        self.socket.connect(("127.0.0.1", port))
        self.replies = self.socket.makefile("rb")
        if user:
            self.must(f"user {user}", f"user {user}")

    def __enter__(self):
        return self

    def __exit__(self, *_):
        self.close()

    def close(self):
        self.replies.close()
        self.socket.close()

    def reset(self):
        """Ends the connection without a farewell."""
        self.socket.setsockopt(socket.SOL_SOCKET, socket.SO_LINGER, b"\x01\0\0\0\0\0\0\0")
        self.close()

    def send(self, text):
        self.socket.sendall(text.encode("latin-1"))

    def line(self):
        """The next line of the answers; an end is reported as such."""
        got = self.patiently(self.replies.readline, "no answer came")
        return got[:-1].decode("latin-1") if got.endswith(b"\n") else f"(the end) {got.decode('latin-1')}".strip()

    def ask(self, line):
        self.send(line + "\n")
        return self.line()

    def must(self, line, wanted):
        mine = self.ask(line)
        demand(mine == wanted, f"{short(line)} is answered {short(mine)} and not {short(wanted)}")

    def has_more(self, seconds=0.0):
        return bool(select.select([self.socket], [], [], seconds)[0])

    def rest(self):
        """All that comes until the end."""
        return self.patiently(self.replies.read, "the connection wasn't ended").decode("latin-1")

    def patiently(self, read, why):
        try:
            return read()
        except TimeoutError:
            raise Failed(f"{why} within {self.socket.gettimeout():.0f} s") from None

    def halt(self):
        """Says that no more is sent."""
        self.socket.shutdown(socket.SHUT_WR)

    def leave(self):
        """Says that no more is sent; nothing more may come."""
        self.halt()
        rest = self.rest()
        demand(not rest, f"after the last answer came {short(rest)}")
        self.close()


def sockets_end(client, seconds=PATIENCE):
    """What still comes until the end, or by what error it ends, and after how many seconds."""
    begun = time.monotonic()
    client.socket.settimeout(seconds)
    try:
        rest = client.rest()
    except OSError as error:
        rest = f"({error})"
    return rest, time.monotonic() - begun


def seated(service, user, seconds=5, connect=None):
    """A connection with this user's seat, once that is free, and after how many seconds. The user who had it sees the
    end of that connection a moment before it is."""
    connect = connect or service.client
    begun = time.monotonic()
    while time.monotonic() < begun + seconds:
        client = connect()
        mine = client.ask(f"user {user}")
        if mine == f"user {user}":
            return client, time.monotonic() - begun
        demand(mine == "fault busy", f"another connection is told {short(mine)}")
        client.close()
        time.sleep(0.02)
    raise Failed(f"the seat isn't free after {seconds} s")
