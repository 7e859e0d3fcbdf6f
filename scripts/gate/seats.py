"""Connections that come in pieces, or take no answer, and seats that keys open, as scripts/test tries them."""
import contextlib
import os
import tempfile
import time

from lib import ONE, PATIENCE, Process, Service, demand, output, seated, short, sockets_end
from web import WebClient, page_port

SEATS = {}


def check(name):
    def add(function):
        SEATS[name] = function
        return function
    return add


@check("who says nothing is ended")
def silent_ones(program):
    """Under --first-line and --idle, each in its time; the session is there for the next connection."""
    with Service(program, "--first-line", "3", "--idle", "3", users=["ann", "bob"]) as service:
        mute, silent = service.client(), service.client("ann")
        silent.must("x = 3;", "x = 3 : int (work 1, depth 1)")
        for client, what in ((mute, "who never said a line"), (silent, "who said no other line")):
            rest, took = sockets_end(client)
            demand(rest in ("", "fault user\n"), f"{what} is answered {short(rest)}")
            client.close()
        client, _ = seated(service, "ann", PATIENCE)
        client.must("x;", "it = 3 : int (work 1, depth 1)")
        client.leave()


@check("a first line in pieces")
def first_line_in_pieces(program):
    """What can't be a user line any more is answered before it ends. A line may come in pieces."""
    with Service(program, "--first-line", "10", users=["ann", "bob"]) as service:
        for text in ("x", "user A", "user abcdefghijklmnopq", "user zed\n1;\n2;\n"):
            with service.client() as client:
                client.send(text)
                mine = client.line()
                demand(mine == "fault user", f"{short(text)} is answered {short(mine)}")
                demand(client.line().startswith("(the end)"), f"after {short(text)} the connection goes on")
        with service.client() as client:
            for piece in ("us", "er a", "nn\n1 ", "+"):
                client.send(piece)
                time.sleep(0.05)
            mine = client.line()
            demand(mine == "user ann", f"a name in pieces is answered {short(mine)}")
            client.must(" 1;", ONE[1])
            client.leave()


@check("answers that nobody takes")
def answers_not_taken(program):
    """A user who takes no answer is ended after --idle, and the session is there for the next connection."""
    with Service(program, "--idle", "1", users=["ann", "bob"]) as service:
        deaf = service.client("ann", receive=8192)
        deaf.ask("x = index(30000);")
        deaf.socket.setblocking(False)
        with contextlib.suppress(BlockingIOError):
            for _ in range(400):
                deaf.socket.send(b"x;\n")
        client, _ = seated(service, "ann", PATIENCE)
        client.must("#x;", "it = 30000 : int (work 2, depth 2)")
        client.leave()
        deaf.close()


@contextlib.contextmanager
def keyed(program):
    """A file of the keys of ann and bob, and what each of them says first."""
    with tempfile.TemporaryDirectory() as folder:
        path = os.path.join(folder, "keys")
        told = output([program, "keys", "--out", path, "ann", "bob"])
        yield path, {name: f"user {name} {key}" for name, key, _ in (row.split(" ") for row in told.splitlines())}


@check("seats that keys open")
def by_keys(program):
    """A key opens the seat of its user over both ports, and the newest connection ends an older one."""
    with (keyed(program) as (path, first),
          Service(program, "--web", "0", "--keys", path, "--log", users=["ann", "bob"]) as service):
        page = page_port(service)
        for line in ("user ann", first["bob"].replace("bob", "ann"), first["ann"] + "0", first["ann"].upper()):
            for client in (service.client(), WebClient(page), WebClient(page, path="/session?user=ann")):
                with client:
                    client.must(line, "fault user")
        with WebClient(page, path="/session?user=bob") as client:
            client.must(first["ann"], "fault user")
        older = service.client()
        older.must(first["ann"], "user ann")
        older.must("x = 3;", "x = 3 : int (work 1, depth 1)")
        for newer in (WebClient(page, path="/session?user=ann"), service.client()):
            newer.must(first["ann"], "user ann")
            newer.must("x;", "it = 3 : int (work 1, depth 1)")
            rest, took = sockets_end(older)
            demand(took < 1, f"the older connection is ended after {took:.1f} s")
            demand(not rest or rest.startswith("("), f"the older connection is told {short(rest)}")
            older = newer
        older.close()
        begun = time.monotonic()
        while service.complaint().count("newer connection") < 2:
            demand(time.monotonic() < begun + PATIENCE, f"the log has {short(service.complaint())}")
            time.sleep(0.02)


@check("keys that are renewed")
def renewed_keys(program):
    """The old key opens nothing, the new one does, and the other users keep theirs."""
    with keyed(program) as (path, first):
        told = output([program, "keys", "--out", path, "--renew", "ann"])
        name, key, _ = told.rstrip("\n").split(" ")
        demand(name == "ann" and key not in first["ann"], f"ann is told {short(told)}")
        with Service(program, "--keys", path, users=["ann", "bob"]) as service:
            for line, answer in ((first["ann"], "fault user"), (f"user ann {key}", "user ann"),
                                 (first["bob"], "user bob")):
                with service.client() as client:
                    client.must(line, answer)


@check("users whom a header names")
def by_header(program):
    """Without keys the port for lines isn't listened to. Nothing can name a user of a page that isn't there."""
    with Process(program, "--user-header", "X-User") as process:
        status, told = process.ended()
        demand((status, told) == (2, "") and "--web" in process.complaint(), f"it ends with {status}, {short(told)}")
    with Process(program, "--web", "0", "--user-header", "X-User") as process:
        told = process.first_line()
        demand(told.startswith("page at http://127.0.0.1:"), f"it begins with {short(told)}")
        with WebClient(int(told.rsplit(":", 1)[1].rstrip("/"))) as client:
            client.must("user ann", "fault user")
