"""The page's port of the program, as scripts/test tries it."""
import contextlib
import io
import json
import os
import random
import re
import socket
import subprocess
import tempfile
import time

from lib import ONE, PATIENCE, TOP, Process, Service, demand, loaded, names, seated, short, sockets_end
from web import BINARY, PING, TEXT, WebClient, asked, frame, page_port, request, upgrade

PAGE = TOP / "crates" / "nesl_web_files" / "page"
HEADERS = {"content-security-policy": "default-src 'none'; script-src 'self'; style-src 'self'; img-src 'self'; "
                                      "connect-src 'self'; base-uri 'none'; form-action 'none'; frame-ancestors 'none'",
           "x-content-type-options": "nosniff", "cache-control": "no-store", "referrer-policy": "no-referrer"}
LOAD = loaded("stress/load_service")
PAGES = {}


def check(name):
    def add(function):
        PAGES[name] = function
        return function
    return add


def same(what, mine, wanted):
    demand(mine == wanted, f"{what}: expected {short(repr(wanted))}, and there came {short(repr(mine))}")


@contextlib.contextmanager
def shown(program, *words, **how):
    """A service with a page, and the page's port."""
    with Service(program, "--web", "0", *words, **how) as service:
        yield service, page_port(service)


@check("files and who may have them")
def files_and_guests(program):
    """Each file as it is in the repository, if it is requested by a name of this machine, from no other page."""
    evil, name = "http://evil.example", "nesl.example"
    with shown(program, "--web-host", name) as (_, port):
        here = f"127.0.0.1:{port}"
        cases = [(request("/", host=f"{name}:80"), 200), (request("/index.html", host="[::1]"), 200),
                 (request("/style.css?x", host="LOCALHOST"), 200), (request("/nothing"), 404),
                 (request("/../src/lib.rt"), 404), (request("/", "POST"), 405), (request("/nothing", "HEAD"), 404),
                 (request("/", "OPTIONS"), 204), (request("*", "OPTIONS"), 204),
                 (request("/", "OPTIONS", Origin=evil), 403),
                 (request("/", host="localhost.evil.example"), 403), (request("/", host=""), 403),
                 (request("/", host=here, Origin=evil), 403), (request("/", host=here, Origin=f"http://{here}"), 200),
                 (request("/", host=here, Origin=f"http://127.0.0.1:{port + 1}"), 403),
                 (request("/", host=here, Origin="null"), 403), (upgrade(host=here, Origin=evil), 403),
                 (request("/session", host=here), 400), ("GET / HTTP/1.1\r\n\r\n", 403), ("user ann\r\n\r\n", 400),
                 (request("/", x="a" * 9000), 431), (request("/", **{f"x{place}": "" for place in range(70)}), 431)]
        for text, wanted in cases:
            status, headers, _ = asked(port, text)
            same(f"the status of {short(text)}", status, wanted)
            same(f"the headers of {short(text)}", {name: headers.get(name) for name in HEADERS}, HEADERS)
        for file in sorted(PAGE.iterdir()):
            if file.suffix != ".md":
                for method, wanted in (("GET", file.read_bytes()), ("HEAD", b"")):
                    status, headers, data = asked(port, request(f"/{file.name}", method))
                    same(file.name, (status, int(headers["content-length"])), (200, file.stat().st_size))
                    demand(data == wanted, f"{method} {file.name} isn't answered by the file of the repository")
        status, headers, data = asked(port, request("/", "OPTIONS"))
        same("OPTIONS", (status, headers["allow"], data), (204, "GET, HEAD, OPTIONS", b""))
        same("HEAD of nothing", asked(port, request("/nothing", "HEAD"))[2], b"")
        twice = upgrade().replace("Upgrade: ", "Sec-WebSocket-Key: AQIDBAUGBwgJCgsMDQ4PEA==\r\nUpgrade: ", 1)
        same("two keys of a WebSocket", asked(port, twice)[0], 400)
    return f"{len(cases)} requests"


@check("a conversation over a WebSocket")
def conversation(program):
    """Lines, parts and a reset are answered as over a socket. What is no line ends the connection, and frees the seat.
    """
    line = "a" * 65537
    with shown(program, users=["ann", "bob"]) as (service, port):
        with WebClient(port, "ann") as ann, WebClient(port, "bob") as bob:
            ann.must("x = 2 * 3 + 1;", "x = 7 : int (work 5, depth 5)")
            ann.must("{a * a :\\", "more")
            ann.must(" a in [1, 2]};", "it = [1, 4] : [int] (work 12, depth 7)")
            bob.must("x;", "fault unknown at 0..1 (work 0)")
            ann.must(line, "fault long (work 0)")
            ann.must(":reset", "reset: lines 3")
            ann.must("x = 3;", "x = 3 : int (work 1, depth 1)")
            for other in (service.client(), WebClient(port)):
                other.must("user ann", "fault busy")
                other.leave()
            for first in ("user zed", "1 + 1;"):
                with WebClient(port) as stranger:
                    stranger.must(first, "fault user")
                    stranger.is_ended(1000)
            bob.leave()
            ann.leave()
        for kind, data, code in ((BINARY, b"x;", 1003), (TEXT, b"1;\n2;", 1003), (TEXT, b"\xff", 1007),
                                 (TEXT, line.encode() + b"a", 1009)):
            client, _ = seated(service, "ann", PATIENCE, lambda: WebClient(port))
            client.say(kind, data)
            client.is_ended(code)
        seated(service, "ann", PATIENCE, lambda: WebClient(port))[0].reset()
        client, _ = seated(service, "ann", PATIENCE)
        client.must("x;", "it = 3 : int (work 1, depth 1)")
        client.leave()


# Lines that have hints, and a form in two parts. In two of them a character of two bytes is wrong.
WRONG = ["sum 3;", "t = 5;", "if 1 = 1 then 2 else 3;", "x = \"a\\b\" + 1;", "\"é\" + 1;", "é;", "xé = 1;", "(1 + 2;",
         "take([1, 2], 5);", "elt([1], 7);", "function g(x) = y;", "{a * a : a in 3};", "[1, true];", "sum(\\", "x y);",
         "1 / 0;", "lenght([1]);", "let y = 1;", ":quit", "`;"]

# What is asked for by clients that get no hints.
OTHERS = [None, "pazkindu", "pazkindu.hints2", "pazkindu-hints, other"]


@check("hints over a WebSocket")
def hints(program):
    """Who asks for them gets the hint of a batch in a message after a fault, and nobody else does. Hints count as no
    answers."""
    lines = "user ann\n" + "".join(line + "\n" for line in WRONG)
    told = subprocess.run([program, "batch", "--hints", "ann"], input=lines.encode(), stdout=subprocess.PIPE, check=True)
    wanted = told.stdout.split(b"\n")[1:-1]
    with tempfile.TemporaryDirectory() as room:
        stats = os.path.join(room, "stats")
        words = ["--stats", stats, "--connections", "1"]
        with shown(program, *words, users=["ann", "bob"], may_end=True) as (service, port):
            with WebClient(port, "ann", protocols="other, pazkindu.hints") as ann:
                same("the subprotocol", ann.protocol, "pazkindu.hints")
                for line in WRONG:
                    ann.must(line.encode().decode("latin-1"), wanted.pop(0).decode("latin-1"))
                    if wanted and wanted[0].startswith(b"hint: "):
                        hinted(line, json.loads(ann.line().encode("latin-1")), wanted.pop(0))
                ann.must("(1 + 2;", "fault syntax (work 0)")
                same("the second place", json.loads(ann.line())["second"], [0, 1])
                ann.must("1 + 1;", "it = 2 : int (work 3, depth 3)")
                ann.must("x" * 65537, "fault long (work 0)")
                same("the place of what is too long", json.loads(ann.line())["span"], [65536, 65537])
                ann.leave()
            for protocols in OTHERS:
                with WebClient(port, "bob", protocols=protocols) as bob:
                    same(f"the subprotocol for {protocols}", bob.protocol, None)
                    bob.must("sum 3;", "fault syntax (work 0)")
                    bob.must("1 + 1;", "it = 2 : int (work 3, depth 3)")
                    bob.leave()
            with service.client("bob") as bob:
                bob.leave()
            same("its status", service.ended()[0], 0)
        with open(stats, encoding="ascii") as written:
            same("answers that are counted", json.loads(written.read())["lines"], 5 + len(WRONG) + 3 * len(OTHERS))
    return f"{len(WRONG)} lines"


def hinted(line, mine, wanted):
    """The JSON of a hint says what the hint of a batch does. Bytes that are cut off of a character are `?`."""
    start, end, sentence = re.fullmatch(rb"hint: at (\d+)\.\.(\d+): (.*)", wanted).groups()
    try:
        sentence = sentence.decode()
    except UnicodeDecodeError:
        sentence = re.sub(r"[^\0-\x7f]", "?", sentence.decode("latin-1"))
    same(f"the hint on {line}", (mine["hint"], mine["span"]), (sentence, [int(start), int(end)]))
    same(f"the fields of the hint on {line}", sorted(mine), ["hint", "second", "span"])


@check("browsers that say nothing")
def mute_browsers(program):
    """A head and a first line have the time of --first-line together, and a tenth of it where half of the threads are
    taken. So a client that doesn't send them keeps others waiting for a short time only. A user has the time of
    --idle."""
    with shown(program, "--first-line", "2", "--idle", "3") as (service, port):
        mute = [socket.create_connection(("127.0.0.1", port)) for _ in range(10)]
        begun = time.monotonic()
        with WebClient(port, "ann") as client:
            waited = time.monotonic() - begun
            client.must(*ONE)
            rest, took = sockets_end(client)
            demand(rest == "" and 2 < took < 9, f"who says no other line is told {short(rest)} after {took:.1f} s")
        demand(waited < 1.8, f"behind as many as there are threads, who say nothing, a user waited {waited:.1f} s")
        for line in mute:
            demand(line.recv(100).startswith(b"HTTP/1.1 408 "), "who is slow isn't told so")
            line.close()
        late, begun = socket.create_connection(("127.0.0.1", port), timeout=PATIENCE), time.monotonic()
        time.sleep(1.5)
        late.sendall(upgrade().encode())
        while late.recv(1000):
            pass
        took = time.monotonic() - begun
        demand(1.5 < took < 2.9, f"who says no first line behind a late head is let go after {took:.1f} s")
        service.must_live()
    return f"a user waited {waited:.1f} s"


@check("pings whose answers nobody takes")
def untaken_answers(program):
    """A client that sends pings before a first line, and takes no answer, is dropped after --first-line. So is one that
    does so after the first line, after --idle."""
    pings, figures = frame(PING, bytes(125)) * 500, []
    for user, words in ((None, ["--first-line", "2"]), ("ann", ["--idle", "2"])):
        with shown(program, *words) as (service, port):
            with WebClient(port, user) as client:
                begun = time.monotonic()
                with contextlib.suppress(ConnectionError, TimeoutError):
                    while time.monotonic() - begun < PATIENCE:
                        client.socket.sendall(pings)
                took = time.monotonic() - begun
            demand(took < 12, f"who takes no answer isn't let go in {took:.1f} s, with {words}")
            figures.append(f"{took:.1f} s")
            seated(service, "ann", PATIENCE)[0].leave()
    return "let go after " + " and ".join(figures)


@check("users on sockets and on WebSockets")
def both_ways(program):
    """64 over sockets, the same 64 over WebSockets, then 32 over each: each gets the answers that it gets alone."""
    rng, said = random.Random(3), []
    for user in names(64):
        lines = LOAD.texts_of(rng, 12)
        said.append((user, lines, LOAD.alone(program, user, lines)))
    with contextlib.redirect_stdout(io.StringIO()) as told:
        demand(not LOAD.told_both_ways(program, said, []), told.getvalue())
    return "3 times 64 users, in one service"


@check("the log and the ports of a page")
def log_and_ports(program):
    """Connections over WebSockets are logged as others are; a port that is taken is reported as such."""
    with shown(program, "--log", "--connections", "1", may_end=True) as (service, port):
        with WebClient(port, "ann") as client:
            client.must(*ONE)
            client.leave()
        with WebClient(port) as stranger:
            stranger.must("user zed", "fault user")
            stranger.is_ended(1000)
        asked(port, request("/"))
        with service.client("ann") as client:
            client.leave()
        same("its end", service.ended(), (0, "served 1 connections, 1 lines"))
        rows = [line.split(" ", 1)[1].split(" port ") for line in service.complaint().split("\n")]
    for who, seat, end in (("web 1", "seated ann", "ann, 2 lines, end of input"),
                           ("web 2", "turned away: unknown", "no user, 1 lines, turned away"),
                           ("1", "seated ann", "ann, 1 lines, end of input")):
        told = [rest.split(" ", 1)[1].rsplit(",", 1)[0] for front, rest in rows if front == f"connection {who}"]
        same(f"the log of connection {who}", told, ["began", seat, f"ended: {end}"])
    same("lines of the log", len(rows), 9)
    with shown(program, "--connections", "1", may_end=True) as (service, port), WebClient(port, "ann") as sitting:
        service.client().close()
        sitting.must(*ONE)
        time.sleep(0.3)
        with contextlib.suppress(ConnectionRefusedError), service.client(wait=2) as late:
            demand(False, f"after the last connection another is taken up, and told {short(late.ask('user ann'))}")
        sitting.must(*ONE)
    with socket.create_server(("127.0.0.1", 0)) as taken:
        port = taken.getsockname()[1]
        with Process(program, "--web", str(port)) as process:
            same("its status where the port is taken", process.ended()[0], 1)
            same("what it says", process.complaint(), f"serve: socket fault\nport {port} is taken")
