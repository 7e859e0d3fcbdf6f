"""The prompt, and hints in a batch, as scripts/test tries them: over pipes, and in a terminal of its own.

A transcript of README.md is a block that begins with `$ ./pazkindu repl`. Its lines are typed into a terminal, and what
the terminal shows has to be the block. An account of docs/LANGUAGE.md is a block with the word `text`; a lesson has parts
of accounts, in indented blocks that begin with `> :cost `.
"""
import contextlib
import fcntl
import os
import pty
import random
import re
import select
import signal
import struct
import subprocess
import termios
import time

from lib import PATIENCE, TOP, demand, ending, loaded, prepared, short

EXAMPLES, LOAD = loaded("check_examples"), loaded("stress/load_service")
COMMAND = "$ ./pazkindu repl"
MEMORY = b"fault memory (work 0)"
PROMPT = {}


def check(name):
    def add(function):
        PROMPT[name] = function
        return function
    return add


def ran(program, *words, text=b"", **how):
    """What a run says on standard output and on standard error, and its status."""
    it = subprocess.run([program, *words], stderr=subprocess.PIPE, check=False,
                        **{"input": text, "stdout": subprocess.PIPE, "timeout": PATIENCE, **how})
    return it.stdout or b"", it.returncode, it.stderr.decode("latin-1").strip()


def told(program, text, *words):
    """What a prompt answers to a text, which it has to read to its end."""
    out, status, complaint = ran(program, "repl", *words, text=text)
    demand(status == 0 and not complaint, f"{ending(status)} {short(complaint)}")
    return out


def same(what, mine, wanted):
    demand(mine == wanted, f"{what}: expected {short(wanted)}, and there came {short(mine)}")


def lines_said(seed, count):
    """Generated lines, some of which are faults."""
    return LOAD.lines_of(random.Random(seed), count)


# In a terminal.

class Terminal:
    """The program in a terminal of 80 columns, which shows what is typed."""

    def __init__(self, *words):
        self.pid, self.end = pty.fork()
        if self.pid == 0:
            os.execv(words[0], words)
        fcntl.ioctl(self.end, termios.TIOCSWINSZ, struct.pack("HHHH", 24, 80, 0, 0))
        self.bytes, self.least = b"", 0

    def __enter__(self):
        return self

    def __exit__(self, *_):
        os.close(self.end)
        if self.pid:
            os.kill(self.pid, signal.SIGKILL)
            os.waitpid(self.pid, 0)

    def seen(self):
        return self.bytes.decode("latin-1").replace("\r\n", "\n")

    def reads(self, until):
        """Adds to what was seen; false where the program has ended."""
        ready = select.select([self.end], [], [], max(0, until - time.monotonic()))[0]
        demand(ready, f"nothing more came behind {short(self.seen()[-200:])}")
        with contextlib.suppress(OSError):
            piece = os.read(self.end, 65536)
            self.bytes += piece
            return bool(piece)
        return False

    def shows(self, text):
        """Waits until the screen ends so, after what was typed last."""
        until = time.monotonic() + PATIENCE
        while len(self.seen()) < self.least or not self.seen().endswith(text):
            demand(self.reads(until), f"it ended behind {short(self.seen()[-200:])}")

    def type(self, text):
        self.least = len(self.seen()) + len(text) + 1
        os.write(self.end, text.encode("latin-1"))

    def ends(self):
        """All that it has shown when it ends, which it has to do with status 0."""
        until = time.monotonic() + PATIENCE
        while self.reads(until):
            pass
        pid, self.pid = self.pid, 0
        status = os.waitstatus_to_exitcode(os.waitpid(pid, 0)[1])
        demand(status == 0, ending(status))
        return self.seen()


def transcripts():
    """The transcripts of README.md, each without the line of its command."""
    page = (TOP / "README.md").read_text()
    # Blocks of all languages are read, so that the end of one isn't taken for the begin of another.
    fenced = re.findall(r"^```(\w*)\n(.*?)\n```$", page, re.S | re.M)
    blocks = [block.split("\n") for language, block in fenced if not language]
    return [block[1:] for block in blocks if block[0].startswith(COMMAND)]


def is_typed(line):
    return line.startswith(("> ", ". "))


@check("transcripts of README.md")
def shown(program):
    """What the terminal shows is what is there."""
    found = transcripts()
    demand(found, f"there is no block that begins with `{COMMAND}`")
    for block in found:
        with Terminal(program, "repl") as it:
            for line in block:
                if is_typed(line):
                    it.shows(line[:2])
                    it.type(line[2:] + "\n")
            text = it.ends() if block[-1] == "> :quit" else it.seen()
            mine = text.rstrip("\n").split("\n")
            for number, (wanted, line) in enumerate(zip(block, mine), 1):
                same(f"line {number} of the transcript", line, wanted)
            same("the number of lines", str(len(mine)), str(len(block)))
    return f"{sum(len(block) for block in found)} lines"


def said_at(it, example):
    """Says the lines of a lesson at a prompt, and holds what the terminal shows to the page."""
    for index, (line, reply) in enumerate(example.pairs):
        before, sign = len(it.seen()), ". " if reply == "more" else "> "
        it.type(line + "\n")
        it.shows("\n" + sign)
        first, mine, *below = it.seen()[before:-len(sign)].split("\n")[:-1]
        same(example.place(index), f"{first}\n{mine}", f"{line}\n{reply}")
        hint = [row for row in below if row.startswith("  hint: ")]
        demand(bool(hint) == reply.startswith("fault ") and bool(below) == bool(hint),
               f"{example.place(index)}: below {short(mine)} stands {short(' '.join(below))}")


@check("lessons at a prompt")
def lessons(program):
    """Each lesson can be done there: its lines are answered as its page says, and only faults have more below them."""
    pages = [page for page in EXAMPLES.pages() if EXAMPLES.is_lesson(page)]
    said = [example for page in pages for example in EXAMPLES.examples(page)[0] if not example.names_users()]
    for example in said:
        with Terminal(program, "repl") as it:
            it.shows("\n> ")
            said_at(it, example)
            it.type(":quit\n")
            it.ends()
    return f"{len(said)} lessons, {sum(len(example.pairs) for example in said)} lines"


def accounts_of_lessons():
    """The accounts of the lessons: the page, the lines said before, what is asked for, and lines of the account."""
    for page in filter(EXAMPLES.is_lesson, EXAMPLES.pages()):
        said = [line for example in EXAMPLES.examples(page)[0] for line, _ in example.pairs]
        for block in re.findall(r"(?:^    .*\n)+", (TOP / page).read_text(), re.M):
            first, *below = [line[4:] for line in block.splitlines()]
            if first.startswith("> :cost "):
                yield page, said, first[2:], below


def accounts_of_guide():
    """The accounts of docs/LANGUAGE.md, which are whole."""
    page = "docs/LANGUAGE.md"
    for block in re.findall(r"^```text\n(.*?)\n```$", (TOP / page).read_text(), re.S | re.M):
        before, asked, below = block.partition("\n> :cost ")
        if asked:
            expression, *below = below.split("\n")
            yield page, [line[2:] for line in before.split("\n") if is_typed(line)], f":cost {expression}", below


@check("accounts in the guide and in lessons")
def accounts(program):
    """The prompt writes their lines after the lines that the page has before them, in this order."""
    count = 0
    for page, said, asked, below in [*accounts_of_guide(), *accounts_of_lessons()]:
        answered = told(program, "".join(line + "\n" for line in [*said, asked]).encode("latin-1"))
        lines = iter(answered.decode("latin-1").splitlines())
        for wanted in below:
            demand(wanted in lines, f"{page}: `{asked}` does not show {short(wanted)} there")
            count += 1
    demand(count, "there is no account")
    return f"{count} lines"


@check("a prompt in a terminal")
def in_terminal(program):
    """The end of input ends it, between forms and within one; a form's lines have a prompt of their own. Two blank lines
    end a form, and one doesn't."""
    with Terminal(program, "repl") as it:
        it.shows("\n> ")
        it.type("1 +\n")
        it.shows("\n. ")
        it.type("2;\n")
        it.shows("it = 3 : int (work 3, depth 3)\n> ")
        it.type("\n")
        it.shows("\n> ")
        it.type("5 -\n\n")
        it.shows("\n. . ")
        it.type("2;\n")
        it.shows("it = 3 : int (work 3, depth 3)\n> ")
        it.type("4\n\n\n")
        it.shows("hint: a form ends in `;`\n> ")
        it.type("\x04")
        it.ends()
    with Terminal(program, "repl") as it:
        it.shows("\n> ")
        it.type("1 + 2\n")
        it.shows("\n. ")
        it.type("\x04")
        text = it.ends()
        demand("\nfault syntax (work 0)\n" in text and "hint: " in text, f"it shows {short(text[-300:])}")


@check("a prompt at 80 columns")
def narrow(program):
    """No line that it writes below a fault or for help is wider."""
    asked = [":help", ":help functions", *(f":help {name}" for name in help_names(program)), *WRONG]
    with Terminal(program, "repl") as it:
        it.shows("\n> ")
        for line in asked:
            it.type(line + "\n")
            it.shows("\n> ")
        it.type(":quit\n")
        wide = [line for line in it.ends().split("\n") if len(line) > 80 and not line.startswith(">")]
    demand(not wide, f"{len(wide)} lines are wider, as {short(wide[0]) if wide else ''}")
    return f"{len(asked)} lines said"


@check("help at 80 columns")
def narrow_help(program):
    """The help of the program and of each of its words."""
    for word in ("", "batch", "serve", "repl"):
        text, status, _ = ran(program, *word.split(), "--help")
        wide = [line for line in text.decode("latin-1").split("\n") if len(line) >= 80]
        demand(status == 0 and not wide, f"{word} --help: {ending(status)}, {wide[:1]}")


WRONG = ["function f(x) = x + 1;", "sum 3;", "1 / 0;", "\"abc\" + 1;", "taek([1, 2, 3], 2);", "x = [1, 2;", "@;",
         "{a + 'b' : a in [1, 2]};", "take([1, 2, 3], 4);", "let a = 3 in " + " + ".join(["a"] * 19) + " + z;"]


def help_names(program):
    """The functions and signs that `:help functions` names."""
    text = told(program, b":help functions\n").decode("latin-1")
    return text.split("Functions and signs:")[1].split()


# Over pipes.

@check("a prompt over pipes is its session")
def piped(program):
    """Replies alone are written, as a batch writes them, whether a line is one form or a form has several lines."""
    lines = [line for line in lines_said(11, 400) if line.endswith((b";", b"\\")) and not line.startswith(b":")]
    text = b"".join(line + b"\n" for line in lines)
    batch, _, _ = ran(program, "batch", "ann", text=b"user ann\n" + text)
    mine, wanted = told(program, text).split(b"\n"), batch.split(b"\n")[1:]
    same("the number of replies", str(len(mine)), str(len(wanted)))
    for line, reply, right in zip(lines, mine, wanted):
        same(short(line), reply, right)
    parted = b"x = {a * a\n : a in\n\n\n[1, 2, 3]};\nx[\n1];\n2 +\n3;\n"
    whole = b"user ann\nx = {a * a : a in [1, 2, 3]};\nx[1];\n2 + 3;\n"
    wanted = ran(program, "batch", "ann", text=whole)[0].split(b"\n", 1)[1]
    same("forms over several lines", told(program, parted), wanted)
    return f"{len(lines)} lines"


@check("hints at a prompt over pipes")
def piped_hints(program):
    """With --hints each fault has one below it, and no other reply has."""
    text = "".join(line + "\n" for line in [*WRONG, "1 + 1;", "x = 2;"]).encode()
    rows = told(program, text, "--hints").split(b"\n")[:-1]
    faults = [place for place, row in enumerate(rows) if row.startswith(b"fault ")]
    hints = [place for place, row in enumerate(rows) if row.startswith(b"  hint: ")]
    same("faults and hints", str(len(hints)), str(len(faults)))
    demand(all(place + 3 in hints for place in faults), f"a hint isn't three lines below its fault: {rows}")
    demand(len(faults) == len(WRONG), f"{len(faults)} of {len(WRONG)} wrong lines are faults")
    return f"{len(hints)} hints"


@check("--hints in a batch")
def batch_hints(program):
    """Below a fault is one line that begins with `hint: `, and all else is as without them."""
    lines = [b"user ann", *lines_said(12, 300), *(line.encode() for line in WRONG)]
    lines += [b"1 + \\", b"y;", b"user zed", b"1;"]
    text = b"".join(line + b"\n" for line in lines)
    plain, _, _ = ran(program, "batch", "ann", text=text)
    hinted, status, complaint = ran(program, "batch", "--hints", "ann", text=text)
    demand(status == 0 and not complaint, f"{ending(status)} {short(complaint)}")
    rows, count = hinted.split(b"\n"), 0
    for place, row in enumerate(rows):
        if row.startswith(b"hint: "):
            demand(rows[place - 1].startswith(b"fault "), f"a hint stands below {short(rows[place - 1])}")
            count += 1
    demand(b"\n".join(row for row in rows if not row.startswith(b"hint: ")) == plain, "the other lines differ")
    faults = [row for row in plain.split(b"\n") if row.startswith(b"fault ") and row != b"fault user"]
    same("faults and hints", str(count), str(len(faults)))
    small, _, _ = ran(program, "batch", "--hints", "--heap", "65536", "ann", text=b"user ann\nsum 3;\n1 + 1;\n")
    demand(small.split(b"\n")[2].startswith(b"hint: ") and small.endswith(b"it = 2 : int (work 3, depth 3)\n"),
           f"in a heap there came {short(small)}")
    return f"{count} hints"


@check("words and devices of a prompt")
def ends(program):
    """Statuses and what is said on standard error are as those of the other words."""
    def ended(wanted, *words, **how):
        _, status, complaint = ran(program, *words, **how)
        same(" ".join(words), repr((status, complaint.split("\n")[0])), repr(wanted))
    ended((2, "error: unexpected argument 'ann' found"), "repl", "ann")
    ended((0, ""), "repl", "--help")
    ended((0, ""), "repl")
    ended((0, ""), "repl", text=b"1 +")
    ended((0, ""), "repl", text=b":quit\n@\n")
    with open("/dev/full", "wb") as full:
        ended((1, "repl: write fault"), "repl", text=b"1;\n", stdout=full)
    folder = os.open("/tmp", os.O_RDONLY)
    ended((1, "repl: read fault"), "repl", input=None, stdin=folder)
    os.close(folder)


@check("a prompt under limits of memory")
def limited(program):
    """Each form is answered, be it by `fault memory`, or it says `repl: no memory`; no limit ends it by a signal."""
    text, served, ended, wrong = b"1 + 1;\n#index(900000);\nsum 3;\n:help\n1 +\n1;\n", [], [], []
    for kind in ("AS", "DATA"):
        for megabytes in (10, 11, 12, 13, 14, 16, 18, 20, 24, 32, 48, 80, 160):
            out, status, complaint = ran(program, "repl", "--hints", text=text,
                                         preexec_fn=prepared({kind: megabytes << 20}, ()))
            where, rows = f"{kind} {megabytes} MB", out.split(b"\n")
            if status == 0 and not complaint:
                served.append(where)
                answers = [row for row in rows if row.startswith((b"it = ", b"fault "))]
                if len(answers) < 4 or rows[0] not in (b"it = 2 : int (work 3, depth 3)", MEMORY):
                    wrong.append(f"{where}: {short(out)}")
            elif (status, complaint) in ((1, "repl: no memory"), (1, "")):
                ended.append(where)
            else:
                wrong.append(f"{where}: {ending(status)} {short(complaint)}")
    demand(not wrong, "; ".join(wrong[:3]))
    demand(served, "it served under no limit")
    return f"served {len(served)} times, and ended {len(ended)} times"


@check("hostile lines at a prompt")
def hostile(program):
    """Whatever the bytes are, it hears them to their end."""
    rng = random.Random(13)
    pieces = [b"(", b"[", b"{", b"let ", b" in ", b"\\", b"\n", b"\r\n", b";", b":help ", b":type ", b":load ", b"\xff",
              b"\0", b'"', b"`", b"%", b"a", b"1", b" ", b"'", b"= "]
    for turn in range(12):
        text = b"".join(rng.choice(pieces) for _ in range(4_000))
        for words in ((), ("--hints",)):
            told(program, text, *words)
    deep = b"(" * 30_000 + b"\n" + b"[" * 30_000 + b";\n" + b"let a = " * 8_000 + b"\n\n" + b"1" * 70_000 + b"\n1;\n"
    demand(told(program, deep, "--hints").endswith(b"it = 1 : int (work 1, depth 1)\n"), "the last line isn't answered")
    endless = b"1 +\n" * 20_000
    demand(b"fault long (work 0)\n" in told(program, endless), "a form that is too long isn't told so")
    return "24 texts"
