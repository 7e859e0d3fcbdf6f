"""What an operator and a monitor do while a service runs, for scripts/test: control, metrics, and the log in a file."""
import contextlib
import os
import re
import socket
import subprocess
import tempfile
import time
import urllib.error
import urllib.request
from pathlib import Path

from gate.offered import refused, second_line
from gate.seats import keyed
from lib import PATIENCE, TOP, Process, Service, demand, ending, seated, short, sockets_end
from web import WebClient, page_port

OPERATED = {}
HEAD = "user seat since port lines elements work fault faults seconds"
WORK, LINES, ELEMENTS = 100_000_000, 10_000, 100_000
HEAVY = "sum(index(100000));"


def check(name):
    def add(function):
        OPERATED[name] = function
        return function
    return add


def asked(program, path, *words):
    """What `control` prints, and its status."""
    ran = subprocess.run([program, "control", str(path), *words], stdout=subprocess.PIPE, stderr=subprocess.PIPE,
                         timeout=PATIENCE, check=False)
    return ran.returncode, ran.stdout.decode()


def done(program, path, *words):
    """What is answered to a request that is done, line by line, without its `ok`."""
    status, text = asked(program, path, *words)
    lines = text.splitlines()
    demand(status == 0 and lines and lines[-1] == "ok", f"{' '.join(words)}: {ending(status)} {short(text)}")
    return lines[:-1]


def not_done(program, path, *words, why):
    """A request that is refused for this reason."""
    status, text = asked(program, path, *words)
    demand((status, text) == (1, f"error {why}\n"), f"{' '.join(words)}: {status} {short(text)}")


def rows_of(program, path):
    """The seats, by user."""
    head, *rows = done(program, path, "seats")
    demand(head == HEAD, f"the columns are {short(head)}")
    return {row.split(" ")[0]: dict(zip(HEAD.split(" "), row.split(" "), strict=True)) for row in rows}


@contextlib.contextmanager
def steered(program, *words, **how):
    """A service with an operator, and the path of its socket."""
    with tempfile.TemporaryDirectory() as folder:
        path = Path(folder, "run", "socket")
        with Service(program, "--control", str(path), *words, **how) as service:
            yield service, path


@check("the seats of a service")
def seats_of_service(program):
    """A row for each user: who is here, by which port, what is left, and which fault there was how many times."""
    with steered(program, users=["ann", "bob"]) as (service, path):
        rows = rows_of(program, path)
        demand([row["seat"] for row in rows.values()] == ["away", "away"], f"at first {rows}")
        demand(rows["ann"]["work"] == "-" and rows["ann"]["since"] == "-", f"of nobody {rows['ann']}")
        with service.client("ann") as client:
            client.must("x = index(5);", "x = [0, 1, 2, 3, 4] : [int] (work 7, depth 2)")
            client.must("1 +;", "fault syntax (work 0)")
            demand(client.ask("nobody;").startswith("fault unknown"), "who nobody is")
            row = rows_of(program, path)["ann"]
            port = str(client.socket.getsockname()[1])
            demand((row["seat"], row["port"], row["lines"]) == ("here", port, str(LINES - 3)), f"her row {row}")
            demand((row["fault"], row["faults"]) == ("unknown", "2"), f"her faults {row}")
            demand(int(row["work"]) < WORK and int(row["elements"]) == ELEMENTS - 6, f"what is left {row}")
            demand(re.fullmatch(r"\d{4}-\d\d-\d\dT\d\d:\d\d:\d\dZ", row["since"]), f"since when {row}")
            demand(done(program, path, "check")[1] == "1 of 2 users are here", "how many are here")
            client.leave()
        deadline = time.monotonic() + PATIENCE
        while rows_of(program, path)["ann"]["seat"] != "away":
            demand(time.monotonic() < deadline, "her row stays")
            time.sleep(0.02)


@check("a user whom an operator ends")
def ended_users(program):
    """The connection ends, the log says by whom, and the session is there for the next one; over WebSockets too."""
    with steered(program, "--web", "0", "--log", users=["ann", "bob"]) as (service, path):
        web = page_port(service)
        client = service.client("ann")
        client.must("x = 3;", "x = 3 : int (work 1, depth 1)")
        demand(done(program, path, "end", "ann") == ["1 connections ended"], "ann isn't ended")
        sockets_end(client)
        client, _ = seated(service, "ann", PATIENCE)
        client.must("x;", "it = 3 : int (work 1, depth 1)")
        demand(done(program, path, "end", "bob") == ["0 connections ended"], "bob is ended")
        not_done(program, path, "end", "zed", why="no such user")
        with WebClient(web, "bob"):
            demand(done(program, path, "end", "bob") == ["1 connections ended"], "bob's page isn't ended")
        client.leave()
        deadline = time.monotonic() + PATIENCE
        while service.complaint().count("ended by operator") < 2:
            demand(time.monotonic() < deadline, f"the log has {short(service.complaint())}")
            time.sleep(0.02)


def spend(client):
    """Uses up the work of a session, and asks for more."""
    for _ in range(1000):
        if client.ask(HEAVY).startswith("fault work"):
            return
    demand(False, "the work is never used up")


@check("a session that begins anew")
def renewed_sessions(program):
    """Its user has all work again and no name; who is here isn't renewed; all lines are counted in the end."""
    with steered(program, "--line-work", "1000000000", users=["ann", "bob"], may_end=True) as (service, path):
        with service.client("ann") as client:
            spend(client)
            not_done(program, path, "renew", "ann", why="the user has a connection: end it first")
            before = int(rows_of(program, path)["ann"]["lines"])
            client.leave()
        wait_for_away(program, path, "ann")
        done(program, path, "renew", "ann")
        demand(rows_of(program, path)["ann"]["work"] == str(WORK), "what is left after a renewal")
        not_done(program, path, "renew", "zed", why="no such user")
        with service.client("ann") as client:
            client.must(":budget", f"budget: work {WORK}, elements 0 of {ELEMENTS}, lines 0 of {LINES}, "
                        "bytes 0 of 1048576")
            demand(client.ask("it;").startswith("fault unknown"), "a name that is left")
            client.leave()
        demand(done(program, path, "stop") == [], "what stop says")
        status, text = service.ended()
        demand(status == 0, f"it ended with {ending(status)}")
        demand(text == f"served 2 connections, {LINES - before + 2} lines", f"it said {short(text)}")


def wait_for_away(program, path, user):
    deadline = time.monotonic() + PATIENCE
    while rows_of(program, path)[user]["seat"] != "away":
        demand(time.monotonic() < deadline, f"{user} doesn't leave")
        time.sleep(0.02)


@check("a kept session that begins anew")
def renewed_kept_sessions(program):
    """The file has the new session; what comes after it comes back, and nothing from before."""
    with tempfile.TemporaryDirectory() as folder:
        for count in range(2):
            with steered(program, "--keep", folder, users=["ann"]) as (service, path):
                with service.client("ann") as client:
                    client.must(f"x = {count};", f"x = {count} : int (work 1, depth 1)")
                    client.leave()
                wait_for_away(program, path, "ann")
                done(program, path, "renew", "ann")
                kept = Path(folder, "ann").read_bytes()
                demand(b"pazkindu 1 100000000 " in kept and b"x =" not in kept, f"the file has {kept}")
                with service.client("ann") as client:
                    client.must("y = 5;", "y = 5 : int (work 1, depth 1)")
                    client.leave()
        with steered(program, "--keep", folder, users=["ann"]) as (service, path):
            done(program, path, "renew", "ann")
            with service.client("ann") as client:
                client.must(":budget", f"budget: work {WORK}, elements 0 of {ELEMENTS}, lines 0 of {LINES}, "
                            "bytes 0 of 1048576")
                client.must("y = 6;", "y = 6 : int (work 1, depth 1)")
                client.leave()
        with steered(program, "--keep", folder, users=["ann"]) as (service, path), service.client("ann") as client:
            client.must("y;", "it = 6 : int (work 1, depth 1)")
            client.leave()


@check("a service that an operator stops")
def stopped_services(program):
    """It takes nobody in, waits for who is there until the time, and ends with status 0 and the closing line."""
    for words, goes in ((["stop"], True), (["stop", "1"], False), (["stop", "0"], False)):
        with steered(program, "--web", "0", users=["ann", "bob"], may_end=True) as (service, path):
            client = service.client("ann")
            stop = subprocess.Popen([program, "control", str(path), *words], stdout=subprocess.PIPE)
            if goes:
                deadline = time.monotonic() + PATIENCE
                with contextlib.suppress(OSError):
                    while time.monotonic() < deadline:
                        service.client().close()
                        time.sleep(0.02)
                client.must("1;", "it = 1 : int (work 1, depth 1)")
                client.leave()
            said, _ = stop.communicate(timeout=PATIENCE)
            status, text = service.ended()
            demand((stop.returncode, said) == (0, b"ok\n"), f"{words}: {stop.returncode} {said}")
            demand(status == 0 and re.fullmatch(r"page at \S+\nserved \d+ connections, \d lines", text), short(text))
            client.close()


@check("an operator who changes their mind")
def stopped_twice(program):
    """While a service waits for who is there, other requests are answered, and a second stop sets a time."""
    with steered(program, users=["ann", "bob"], may_end=True) as (service, path), service.client("ann") as client:
        first = subprocess.Popen([program, "control", str(path), "stop"], stdout=subprocess.PIPE)
        goner = subprocess.Popen([program, "control", str(path), "stop", "3000"], stdout=subprocess.PIPE)
        time.sleep(0.3)
        goner.kill()
        goner.wait()
        demand(rows_of(program, path)["ann"]["seat"] == "here", "nobody is here any more")
        client.must("2;", "it = 2 : int (work 1, depth 1)")
        demand(first.poll() is None, "it stops before ann has left")
        demand(done(program, path, "stop", "1") == [], "what the second stop says")
        sockets_end(client)
        demand(first.communicate(timeout=PATIENCE)[0] == b"ok\n" and first.returncode == 0, "the first stop")
        status, text = service.ended()
        demand((status, text) == (0, "served 1 connections, 1 lines"), f"{ending(status)} {short(text)}")


@check("who may listen to an operator")
def sockets_of_operators(program):
    """A folder that others enter, a file, a service that lives: each is refused. A socket that is left is replaced."""
    with tempfile.TemporaryDirectory() as folder:
        open_folder = Path(folder, "open")
        open_folder.mkdir(mode=0o755)
        refused(program, "--control", str(open_folder / "socket"), status=1, text="serve: can't listen at",
                users=["ann"])
        path = Path(folder, "closed", "socket")
        with Service(program, "--control", str(path)) as service:
            demand(path.parent.stat().st_mode & 0o777 == 0o700, "who may enter the folder")
            refused(program, "--control", str(path), status=1, text="serve: can't listen at", users=["ann"])
            with socket.socket(socket.AF_UNIX) as mute:
                mute.connect(str(path))
                mute.sendall(b"x" * 400)
                demand(mute.recv(100) == b"error the request is too long\n", "how a long request is answered")
            with socket.socket(socket.AF_UNIX) as slow:
                slow.connect(str(path))
                begun = time.monotonic()
                with contextlib.suppress(OSError):
                    while time.monotonic() < begun + 8:
                        slow.sendall(b"s")
                        time.sleep(0.5)
                demand(slow.recv(100) == b"error no request within 5 seconds\n", "how a slow request is answered")
            for text, wanted in ((b"\n", b"error unknown request\n"), (b"seats \n", b"error unknown request\n"),
                                 (b"end \xff\n", b"error no such user\n"),
                                 (b"stop 86401\n", b"error SECONDS is a number from 0 to 86400\n")):
                with socket.socket(socket.AF_UNIX) as client:
                    client.connect(str(path))
                    client.sendall(text)
                    with client.makefile("rb") as answer:
                        got = answer.read()
                    demand(got == wanted, f"{text} is answered {got}")
            service.must_live()
        demand(asked(program, path, "seats")[0] == 1, "a service that was killed answers")
        with Service(program, "--control", str(path)):
            done(program, path, "check")
        file = Path(folder, "closed", "file")
        file.write_text("", encoding="ascii")
        refused(program, "--control", str(file), status=1, text="serve: can't listen at", users=["ann"])


@check("the log in a file")
def logs_in_files(program):
    """Lines are added. After `reopen` the next ones are in a new file, if the old one was moved."""
    with tempfile.TemporaryDirectory() as folder:
        log, moved = Path(folder, "log"), Path(folder, "log.1")
        with steered(program, "--log-file", str(log), users=["ann"]) as (service, path):
            with service.client("ann") as client:
                client.leave()
            wait_for_text(log, "ended: ann, 1 lines, end of input")
            os.rename(log, moved)
            done(program, path, "reopen")
            with service.client("ann") as client:
                client.leave()
            wait_for_text(log, "ended: ann")
            demand(moved.read_text().count("began") == 1, "the old file goes on")
            demand(service.complaint() == "", f"standard error has {short(service.complaint())}")
        with steered(program, "--log", users=["ann"]) as (service, path):
            not_done(program, path, "reopen", why="there is no --log-file")
            not_done(program, path, "keys", why="there is no --keys")
        with Process(program, "--log-file", folder) as process:
            demand(process.ended()[0] == 1, "a folder is a log")


@check("a log whose file can't be opened anew")
def logs_that_stay(program):
    """The failure is reported, and the log goes on in the old file."""
    with tempfile.TemporaryDirectory() as folder:
        log, moved = Path(folder, "log"), Path(folder, "log.1")
        with steered(program, "--log-file", str(log), users=["ann"]) as (service, path):
            os.rename(log, moved)
            log.mkdir()
            status, text = asked(program, path, "reopen")
            demand(status == 1 and text.startswith("error the log goes on in the old file: "), f"it says {short(text)}")
            with service.client("ann") as client:
                client.leave()
            wait_for_text(moved, "ended: ann")


def wait_for_text(path, text):
    deadline = time.monotonic() + PATIENCE
    while not path.exists() or text not in path.read_text(encoding="ascii"):
        demand(time.monotonic() < deadline, f"{path.name} hasn't {text}")
        time.sleep(0.02)


def fetched(address):
    """The status and the body of an answer."""
    try:
        with urllib.request.urlopen(address, timeout=PATIENCE) as answer:
            return answer.status, answer.read().decode()
    except urllib.error.HTTPError as error:
        return error.code, error.read().decode()


def versions_of(program):
    """The versions of the program and of the kit, as its metrics name them."""
    kit = re.search(r"Proved with the kit `(\S+)", (TOP / "docs" / "PROMISES.md").read_text(encoding="utf-8"))[1]
    told = subprocess.run([program, "--version"], stdout=subprocess.PIPE, timeout=PATIENCE, check=True).stdout
    return f'version="{told.decode().split()[1]}",kit="{kit}"'


def connected(address):
    """A connection to the port of this address."""
    return socket.create_connection(("127.0.0.1", int(address.split(":")[2].split("/")[0])), PATIENCE)


@check("what a monitor reads")
def metrics_of_service(program):
    """The numbers of the counters in Prometheus's text, without a user's name; whether it is well."""
    with Service(program, "--metrics", "0", users=["ann", "bob"]) as service:
        told = second_line(service)
        demand(re.fullmatch(r"metrics at http://127.0.0.1:\d+/metrics", told), f"it says {short(told)}")
        address = told.removeprefix("metrics at ")
        with service.client("ann") as client:
            client.must("1 / 0;", "fault division at 0..5 (work 3)")
            client.must("2;", "it = 2 : int (work 1, depth 1)")
            status, text = fetched(address)
            client.leave()
        demand(status == 200 and "ann" not in text, f"the metrics {status} {short(text)}")
        for row in ("pazkindu_lines_total 3", "pazkindu_work_total 4", 'pazkindu_faults_total{fault="division"} 1',
                    "pazkindu_connections_open 1", 'pazkindu_line_seconds_bucket{le="+Inf"} 3', "pazkindu_seats 2",
                    "pazkindu_threads 3", "pazkindu_threads_free 2", f"pazkindu_info{{{versions_of(program)}}} 1"):
            demand(f"{row}\n" in text, f"the metrics have no {row}: {text}")
        demand(int(re.search(r"pazkindu_resident_bytes (\d+)", text)[1]) > 1 << 20, "the memory")
        demand(fetched(address.replace("/metrics", "/healthz")) == (200, "ok\n"), "it isn't well")
        demand(fetched(address.replace("/metrics", "/"))[0] == 404, "what isn't there is")
        with connected(address) as mute:
            mute.sendall(b"GET " + b"x" * 8000)
            with contextlib.suppress(OSError):
                mute.recv(100)
        demand(fetched(address)[0] == 200, "it doesn't answer any more")
        with connected(address) as slow:
            slow.sendall(b"G")
            begun = time.monotonic()
            demand(fetched(address)[0] == 200, "it doesn't answer after who is slow")
            demand(time.monotonic() < begun + 4, "who is slow keeps others waiting")
        service.must_live()


@contextlib.contextmanager
def steered_by_keys(program):
    """A service whose users ann and bob have keys: the file of keys, their first lines, the service, and its socket."""
    with keyed(program) as (keys, first), steered(program, "--keys", keys, users=["ann", "bob"]) as (service, path):
        yield keys, first, service, path


def comes(service, line, answer):
    """Somebody says this first line, gets this answer, and leaves."""
    with service.client() as client:
        client.must(line, answer)
        client.leave()


@check("an operator where users have keys")
def steered_with_keys(program):
    """A connection that was ended comes again with its key."""
    with steered_by_keys(program) as (_, first, service, path):
        with service.client() as client:
            client.must(first["ann"], "user ann")
            demand(done(program, path, "end", "ann") == ["1 connections ended"], "ann isn't ended")
            sockets_end(client)
        comes(service, first["ann"], "user ann")


@check("keys that are read again")
def keys_read_again(program):
    """A new key counts for those who sign in later, and the old one no longer. A file that is none changes nothing."""
    with steered_by_keys(program) as (keys, first, service, path):
        with service.client() as client:
            client.must(first["ann"], "user ann")
            made = subprocess.run([program, "keys", "--out", keys, "--renew", "ann"], stdout=subprocess.PIPE,
                                  timeout=PATIENCE, check=True).stdout.decode()
            renewed = " ".join(["user", *made.split(" ")[:2]])
            with service.client() as other:
                other.must(renewed, "fault user")
            demand(done(program, path, "keys") == [], "what keys says")
            client.must("1;", "it = 1 : int (work 1, depth 1)")
            with service.client() as other:
                other.must(first["ann"], "fault user")
            with service.client() as other:
                other.must(renewed, "user ann")
                sockets_end(client)
                other.leave()
        comes(service, first["bob"], "user bob")
        Path(keys).write_text("no keys\n", encoding="ascii")
        status, text = asked(program, path, "keys")
        demand(status == 1 and text.startswith("error the old keys still count: "), f"it says {short(text)}")
        comes(service, renewed, "user ann")


@check("a disk that can't be written")
def disks_that_fail(program):
    """A check says so, and says so no longer once it can be."""
    with tempfile.TemporaryDirectory() as folder:
        kept = Path(folder, "kept")
        with steered(program, "--keep", str(kept), users=["ann"]) as (_, path):
            wanted = "the disk of --keep can be written"
            demand(done(program, path, "check")[2:] == [wanted], "the disk")
            demand(sorted(os.listdir(kept)) == [".lock"], f"the folder has {os.listdir(kept)}")
            kept.rename(Path(folder, "away"))
            status, text = asked(program, path, "check")
            demand(status == 1 and text.startswith("error the disk of --keep can't be written: "), short(text))
            Path(folder, "away").rename(kept)
            demand(done(program, path, "check")[2:] == [wanted], "the disk once more")
