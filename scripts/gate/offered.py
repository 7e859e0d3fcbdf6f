"""What a service is offered by words: limits, users of a file, an address, and a check of all that, for scripts/test."""
import json
import shutil
import socket
import subprocess
import tempfile
import urllib.request
from pathlib import Path

from gate.seats import keyed
from lib import PATIENCE, Process, Service, demand, short
from page_lessons import lesson
from web import WebClient, page_port

LESSONS = Path(__file__).resolve().parent.parent.parent / "lessons"

OFFERED = {}


def check(name):
    def add(function):
        OFFERED[name] = function
        return function
    return add


def refused(program, *words, status, text, users=()):
    """These words end the program with this status, and with this text on standard error."""
    with Process(program, *words, users=users) as process:
        ended, told = process.ended()
        complaint = process.complaint()
        demand((ended, told) == (status, "") and complaint.startswith(text),
               f"{' '.join(words)} ends with {ended}, {short(told)} and {short(complaint)}")


def second_line(process):
    """What it prints below its first line."""
    return process.run.stdout.readline().decode("latin-1").rstrip("\n")


@check("limits of a service's sessions")
def limits_by_words(program):
    """Each one holds, `:budget` tells it, and what isn't given is as usual. Sessions that are kept have no others."""
    words = ["--line-work", "2000000", "--session-work", "5000000000", "--elements", "7", "--transcript-lines", "5"]
    with Service(program, *words) as service, service.client("ann") as client:
        client.must(":budget", "budget: work 5000000000, elements 0 of 7, lines 0 of 5, bytes 0 of 1048576")
        client.must("x = index(9);", "fault elements (work 11)")
        client.must("sum(index(1500000));", "fault work (work 2000000)")
        client.must("sum(index(500000));", "it = 124999750000 : int (work 1000003, depth 22)")
        client.must("1;", "it = 1 : int (work 1, depth 1)")
        client.must("2;", "fault transcript (work 0)")
        client.leave()
    with tempfile.TemporaryDirectory() as folder:
        refused(program, "--keep", folder, "--elements", "7", status=2, text="serve: sessions that --keep keeps",
                users=["ann"])


def said_to(program, words, lines, wanted):
    """What the program answers to these lines on standard input."""
    ran = subprocess.run([program, *words], input=lines, stdout=subprocess.PIPE, timeout=PATIENCE, check=False)
    told = ran.stdout.decode().splitlines()
    demand((ran.returncode, told) == (0, wanted), f"{' '.join(words)} ends with {ran.returncode} and {told}")


@check("limits of the sessions of a batch and of a prompt")
def limits_without_service(program):
    """Each one holds, and `:budget` tells it; so it is with `--csv`, and in a heap."""
    words = ["--line-work", "2000000", "--session-work=5000000000", "--elements", "7", "--transcript-lines", "5"]
    lines = b":budget\nx = index(9);\nsum(index(1500000));\nsum(index(500000));\n1;\n2;\n"
    wanted = ["budget: work 5000000000, elements 0 of 7, lines 0 of 5, bytes 0 of 1048576",
              "fault elements (work 11)", "fault work (work 2000000)",
              "it = 124999750000 : int (work 1000003, depth 22)", "it = 1 : int (work 1, depth 1)",
              "fault transcript (work 0)"]
    for rest in (["batch", "ann"], ["batch", "--heap", "100000000", "ann"]):
        said_to(program, [*rest[:1], *words, *rest[1:]], b"user ann\n" + lines, ["user ann", *wanted])
    said_to(program, ["repl", *words], lines, wanted)
    costs = ["n,work,depth,fault", "500000,1000003,22,", "1500000,,,work"]
    said_to(program, ["batch", "--csv=500000,1500000", "--line-work=2000000", "ann"], b"sum(index(n));\n", costs)


@check("users of a file")
def users_of_file(program):
    """They are served beside those who are named. What is wrong with the file or its names is said."""
    with tempfile.TemporaryDirectory() as folder:
        path = Path(folder, "class")
        path.write_bytes(b"# the class\n\n  bob \r\ncarol\n#dave\n")
        with Service(program, "--users", str(path)) as service:
            for user, answer in (("ann", "user ann"), ("bob", "user bob"), ("carol", "user carol"), ("dave", "fault user")):
                with service.client() as client:
                    client.must(f"user {user}", answer)
        with Service(program, "--users", str(path), users=()) as service, service.client() as client:
            client.must("user bob", "user bob")
        cases = [(b"Bob\n", 2, "roster: bad name Bob"), (b"ann\n", 2, "roster: ann stands twice"),
                 (b"bob\xff\n", 1, f"serve: can't read users in {path}\nit isn't UTF-8"),
                 (b"".join(b"u%d\n" % number for number in range(64)), 2, "roster: bad count")]
        for text, status, complaint in cases:
            path.write_bytes(text)
            refused(program, "--users", str(path), status=status, text=complaint, users=["ann"])
        path.write_bytes(b"# nobody\n")
        refused(program, "--users", str(path), status=2, text="serve: no users")
        refused(program, "--users", f"{folder}/none", status=1, text=f"serve: can't read users in {folder}/none\n")
        refused(program, "--users", folder, status=1, text=f"serve: can't read users in {folder}\n")
    refused(program, status=2, text="serve: no users")


@check("an address that others reach")
def bound(program):
    """Only with keys is another address than this machine's own listened to, and then no other."""
    refused(program, "--bind", "127.0.0.2", status=2, text="serve: --bind needs --keys", users=["ann"])
    with keyed(program) as (path, first):
        refused(program, "--bind", "here", "--keys", path, status=2, text="serve: bad address here", users=["ann"])
        with Process(program, "--bind", "127.0.0.2", "--keys", path, "--web", "0", users=["ann", "bob"]) as process:
            told = process.first_line()
            demand(told.startswith("listening on 127.0.0.2:"), f"it begins with {short(told)}")
            port = int(told.rsplit(":", 1)[1])
            with socket.create_connection(("127.0.0.2", port)) as client:
                client.sendall(f"{first['ann']}\n".encode())
                demand(client.recv(100) == b"user ann\n", "ann gets no seat there")
            with socket.socket() as client:
                demand(client.connect_ex(("127.0.0.1", port)) != 0, "127.0.0.1 is listened to as well")
            page = second_line(process)
            demand(page.startswith("page at http://127.0.0.2:"), f"its second line is {short(page)}")
        words = ["--bind", "127.0.0.2", "--keys", path, "--web", "0", "--user-header", "X-User"]
        with Process(program, *words, users=["ann", "bob"]) as process:
            told = process.first_line()
            page = second_line(process)
            demand(told.startswith("listening on 127.0.0.2:") and page.startswith("page at http://127.0.0.1:"),
                   f"with a header it prints {short(told)} and {short(page)}")
            with WebClient(int(page.rsplit(":", 1)[1].rstrip("/"))) as client:
                client.must("user ann", "fault user")


@check("a check of the words")
def checked(program):
    """It ends with nothing to say, or as the service would that isn't begun."""
    with keyed(program) as (path, _), tempfile.TemporaryDirectory() as folder:
        for words in ([], ["--keys", path], ["--keep", folder], ["--keys", path, "--bind", "192.0.2.7", "--web", "0"]):
            refused(program, "--check", *words, status=0, text="", users=["ann", "bob"])
        refused(program, "--check", "--keys", f"{folder}/none", status=1, text="serve: can't read keys", users=["ann"])
        refused(program, "--check", "--keep", path, status=1, text="serve: can't keep sessions in", users=["ann"])
        refused(program, "--check", status=2, text="roster: bad name A", users=["A"])


def shown_lessons(program, folder):
    """The lessons that a page shows."""
    with Service(program, "--web", "0", "--lessons", folder) as service:
        with urllib.request.urlopen(f"http://127.0.0.1:{page_port(service)}/lessons.json", timeout=PATIENCE) as answer:
            return json.loads(answer.read())


@check("lessons of a teacher")
def lessons_of_folder(program):
    """The page shows those of the folder, as it shows ours. A check runs their blocks, and reports what differs."""
    with tempfile.TemporaryDirectory() as folder:
        for path in LESSONS.glob("*.md"):
            shutil.copy(path, folder)
        names = sorted(path.name for path in LESSONS.glob("[0-9]*.md"))
        mine = shown_lessons(program, folder)
        demand(len(mine) == len(names), f"{len(mine)} lessons")
        for name, shown in zip(names, mine, strict=True):
            ours = lesson(LESSONS / name, "")
            demand(shown["title"] == ours["title"], f"{name} has the title {shown['title']}")
            for got, wanted in zip(shown["parts"], ours["parts"], strict=True):
                demand(got == json.loads(json.dumps(wanted)), f"{name}: {short(str(got))} and not {short(str(wanted))}")
        refused(program, "--check", "--web", "0", "--lessons", folder, status=0, text="", users=["ann"])
        Path(folder, "14-wrong.md").write_text("# Wrong\n\n```\n> 1 + 1;\nit = 3 : int (work 3, depth 3)\n```\n")
        refused(program, "--check", "--web", "0", "--lessons", folder, status=1, users=["ann"],
                text="lessons: 14-wrong.md: 1 + 1; is answered it = 2 : int (work 3, depth 3)")
    with tempfile.TemporaryDirectory() as folder:
        refused(program, "--lessons", folder, status=1, text="serve: can't show the lessons in", users=["ann"])
        refused(program, "--lessons", f"{folder}/none", status=1, text="serve: can't show the lessons in", users=["ann"])
        Path(folder, "a.md").write_bytes(b"# \xff\n")
        refused(program, "--lessons", folder, status=1, text="lessons: a.md", users=["ann"])
