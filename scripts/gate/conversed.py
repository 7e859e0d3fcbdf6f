"""Conversations that are in files, as scripts/test sends them to the program.

A file of scripts/gate/talks has conversations, each below a title and the words that the program is called with:

    == two users take turns
    @ batch ann bob
    > user ann
    user ann
    >> 1 + 1;\\r\\n
    it = 2 : int (work 3, depth 3)

After `> ` is a line that is sent, after `>> ` text that is sent with Python's escapes and with no line end of
its own; anything else is the next line of the answers. `(end)` is the end of the input. A batch is said twice: line by
line, each answer before what is said next, and all at once.

    == a seat is taken
    @ serve ann
    A> user ann
    A: user ann
    B> user ann
    B: fault busy
    B is ended
    A ends

Under `serve` each line begins with the name of a connection, which is made where it is first named; `serve` is called
with a free port. Of a connection it can be said that it `halts` (it says no more), that it `ends` (it says no more, and
nothing more may come), that it `is ended` by the service, that it `resets`, and that it `sits as USER`, as soon as the
seat is free. `= TEXT` is what the service prints when it ends by itself. Empty lines, and lines that begin with `%`,
mean nothing.
"""
import os
import re
import select
import subprocess
import time

from lib import PATIENCE, Failed, Service, demand, ending, prepared, seated, short

STEP = re.compile(r"(\w*)(>>|>|:) ?(.*)")
EVENT = re.compile(r"(\w+) (ends|halts|is ended|resets|sits as (\w+))")


class Talk:
    """A conversation: its title, the program's words, and its steps, each with its line of the file."""

    def __init__(self, place, title):
        self.place, self.title, self.words, self.steps = place, title, [], []

    def add(self, number, line):
        if line.startswith("@ "):
            self.words = line[2:].split()
        elif line == "(end)":
            self.steps.append((number, "", "end", ""))
        elif self.words[:1] == ["serve"]:
            self.steps.append((number, *self.served(number, line)))
        elif line.startswith(">"):
            self.steps.append((number, "", "say", spoken(STEP.fullmatch(line))))
        else:
            self.steps.append((number, "", "hear", line))

    def served(self, number, line):
        event, step = EVENT.fullmatch(line), STEP.fullmatch(line)
        if line.startswith("= "):
            return "", "prints", line[2:]
        if event:
            return event[1], event[2].split(" as ")[0], event[3] or ""
        if not step or not step[1]:
            raise Failed(f"{self.place}:{number}: this is no step of a conversation over sockets: {line}")
        return step[1], "hear" if step[2] == ":" else "say", step[3] if step[2] == ":" else spoken(step)


def spoken(step):
    """What a step says, as a text of bytes."""
    if step[2] == ">":
        return step[3] + "\n"
    return step[3].encode("latin-1").decode("unicode_escape")


def talks(folder):
    """All conversations of a folder's files, in the order of their names."""
    found = []
    for name in sorted(os.listdir(folder)):
        if not name.endswith(".talk"):
            continue
        with open(os.path.join(folder, name), encoding="latin-1") as file:
            lines = file.read().split("\n")
        for number, line in enumerate(lines, 1):
            if line.startswith("== "):
                found.append(Talk(f"scripts/gate/talks/{name}", line[3:]))
            elif line and not line.startswith("%"):
                found[-1].add(number, line)
    return found


class Pipe:
    """A program that is spoken to over pipes, one line after the other."""

    def __init__(self, words, limits=None):
        self.run = subprocess.Popen(words, stdin=subprocess.PIPE, stdout=subprocess.PIPE, stderr=subprocess.PIPE,
                                    preexec_fn=prepared(limits or {}, ()))
        self.got = b""

    def __enter__(self):
        return self

    def __exit__(self, *_):
        self.run.kill()
        self.run.wait()
        for file in (self.run.stdout, self.run.stderr):
            file.close()

    def say(self, text):
        self.run.stdin.write(text.encode("latin-1"))
        self.run.stdin.flush()

    def line(self, seconds=PATIENCE):
        """The next line of the answers; an end is reported as such."""
        until = time.monotonic() + seconds
        while b"\n" not in self.got:
            if not select.select([self.run.stdout], [], [], max(0, until - time.monotonic()))[0]:
                raise Failed(f"no answer came within {seconds} s")
            piece = os.read(self.run.stdout.fileno(), 65536)
            if not piece:
                return f"(the end) {self.got.decode('latin-1')}".strip()
            self.got += piece
        line, _, self.got = self.got.partition(b"\n")
        return line.decode("latin-1")

    def end(self):
        self.run.stdin.close()


def must_be(talk, number, mine, wanted):
    demand(mine == wanted, f"{talk.place}:{number}: expected {short(wanted)}, and there came {short(mine)}")


def said_step_by_step(program, talk):
    with Pipe([program, *talk.words]) as pipe:
        for number, _, what, text in talk.steps:
            if what == "say":
                pipe.say(text)
            elif what == "hear":
                must_be(talk, number, pipe.line(), text)
            else:
                pipe.end()
        if not pipe.run.stdin.closed:
            pipe.end()
        must_be(talk, number, pipe.line(), "(the end)")
        status = pipe.run.wait(PATIENCE)
        demand(status == 0, f"{talk.place}: {ending(status)} {short(pipe.run.stderr.read())}")


def said_at_once(program, talk):
    data = "".join(text for _, _, what, text in talk.steps if what == "say").encode("latin-1")
    wanted = [(number, text) for number, _, what, text in talk.steps if what == "hear"]
    ran = subprocess.run([program, *talk.words], input=data, stdout=subprocess.PIPE, stderr=subprocess.PIPE,
                         timeout=PATIENCE, check=False)
    told = ran.stdout.decode("latin-1").split("\n")[:-1]
    for (number, text), mine in zip(wanted, told):
        must_be(talk, number, mine, text)
    demand(len(told) == len(wanted), f"{talk.place}: expected {len(wanted)} answers, and there came {len(told)}")
    demand(ran.returncode == 0 and not ran.stderr, f"{talk.place}: {ending(ran.returncode)} {short(ran.stderr)}")


def said_over_sockets(program, talk):
    ends_itself = any(what == "prints" for _, _, what, _ in talk.steps)
    service = Service(program, *talk.words[1:], users=(), may_end=ends_itself)
    clients = {}
    with service:
        for number, who, what, text in talk.steps:
            if what == "sits":
                clients[who], _ = seated(service, text, PATIENCE)
            elif who and who not in clients:
                clients[who] = service.client()
            if what == "prints":
                status, last = service.ended()
                demand(status == 0, f"{talk.place}:{number}: {ending(status)}")
                must_be(talk, number, last, text)
            elif what != "sits":
                take_step(talk, number, clients[who], what, text)


def take_step(talk, number, client, what, text):
    try:
        if what == "say":
            client.send(text)
        elif what == "hear":
            must_be(talk, number, client.line(), text)
        elif what == "halts":
            client.halt()
        elif what == "ends":
            client.leave()
        elif what == "is ended":
            must_be(talk, number, client.line(), "(the end)")
            client.close()
        elif what == "resets":
            client.reset()
    except (OSError, Failed) as error:
        where = "" if str(error).startswith(talk.place) else f"{talk.place}:{number}: "
        raise Failed(f"{where}{error}") from None


def hold(program, talk):
    """Says a conversation to the program, and fails at the first answer that isn't the one of the file."""
    if talk.words[0] == "serve":
        said_over_sockets(program, talk)
    else:
        said_step_by_step(program, talk)
        said_at_once(program, talk)

