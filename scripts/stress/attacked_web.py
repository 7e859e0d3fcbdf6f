"""What strangers and users do on the page's port, as cases of scripts/stress/attack."""
import signal
import socket
import threading
import time

from lib import ONE, Failed, Service, demand, ending, names, short
from stress.attacked import WANTING, need, swallow
from web import MORE, WebClient, page_port, request, upgrade

PATIENT = 30
WEB_CASES = {}


def case(seconds):
    """A case that may take this number of seconds, as in scripts/stress/attack."""
    def add(function):
        WEB_CASES[function.__name__] = (function, seconds)
        return function
    return add


def mutes(port, count, head=b""):
    crowd = [socket.create_connection(("127.0.0.1", port), timeout=PATIENT) for _ in range(count)]
    for line in crowd:
        line.sendall(head)
    return crowd


@case(120)
def browsers_that_keep_out(program):
    """12 mute connections kept 8 users out for 10 s, and 12 late heads for 21 s: 12 keep no user out; figures."""
    figures = []
    for count in (12, 24, 48):
        for kind, head in (("mute", b""), ("without a first line", upgrade().encode())):
            with Service(program, "--web", "0", users=names(8)) as service:
                port = page_port(service)
                crowd = mutes(port, count, head)
                time.sleep(0.2)
                begun = time.monotonic()
                with WebClient(port, "u0", wait=30) as client:
                    took = time.monotonic() - begun
                    client.must(*ONE)
                figures.append(f"{took:.1f} s behind {count} {kind}")
                demand(took < (0.5 if count < 24 else 5), figures[-1])
                for line in crowd:
                    line.close()
    return ", ".join(figures)


@case(60)
def late_heads(program):
    """A head just in time had its first line's time besides: both have one, of 10 s."""
    with Service(program, "--web", "0", "--log") as service:
        [line] = mutes(page_port(service), 1)
        begun = time.monotonic()
        time.sleep(9)
        line.sendall(upgrade().encode())
        while line.recv(1000):
            pass
        took = time.monotonic() - begun
        demand(9.5 < took < 12, f"a connection without a first line is ended after {took:.1f} s")
        line.close()
        time.sleep(1)
        log = service.complaint()
        demand("no first line" in log, f"the log has {short(log)}")
        return f"{took:.1f} s"


@case(120)
def accept_that_fails(program):
    """Where no connection could be accepted for a minute the log didn't say why: it names the error of the system."""
    with Service(program, "--log", may_end=True) as service:
        some = service.descriptors()
    with Service(program, "--log", may_end=True, limits={"NOFILE": some}) as service:
        client = service.client(wait=90)
        status, _ = service.ended(90)
        said = service.complaint().split("\n")
        client.close()
        demand(status == 1 and said[-1] == "serve: socket fault", f"{ending(status)}, {said}")
        demand(any(line.endswith(" accept failed: EMFILE") for line in said), f"the log has {said}")


@case(60)
def head_stopped_and_continued(program):
    """SIGSTOP and SIGCONT while the page's head was read closed that connection: it is answered, in the time it has."""
    with Service(program, "--web", "0") as service:
        port = page_port(service)
        heads = [(request("/").encode(), b"HTTP/1.1 200 "), (upgrade().encode(), b"HTTP/1.1 101 ")]
        waiting = [(socket.create_connection(("127.0.0.1", port), timeout=PATIENT), *head) for head in heads * 2]
        for line, head, _ in waiting[:2]:
            line.sendall(head[:30])
        for _ in range(4):
            time.sleep(0.2)
            service.run.send_signal(signal.SIGSTOP)
            time.sleep(0.5)
            service.run.send_signal(signal.SIGCONT)
        for place, (line, head, wanted) in enumerate(waiting):
            line.sendall(head[30:] if place < 2 else head)
            told = line.recv(len(wanted))
            demand(told == wanted, f"request {place} is answered {short(told)}")
            line.close()


NAME = "z" * 60_000


def named(count):
    """A line whose answer has a name of 60,000 bytes this number of times, and the bytes of that answer."""
    return f"dist({NAME}(1), {count});", 7 + (len(NAME) + 5) * count - 2 + 4 + len(NAME) + 24


def taken(client):
    """Takes in one answer without keeping it: how many bytes, its front, and whether it came whole."""
    if not isinstance(client, WebClient):
        try:
            first, _, size = swallow(client)
            return size - 1, first, True
        except Failed:
            return 0, "", False
    size, first, is_last, kind = 0, b"", False, MORE
    while not is_last:
        kind, data, is_last = client.next_frame()
        if kind is None or kind > 2:
            return size, first.decode("latin-1"), False
        first, size = first or data[:100], size + len(data)
    return size, first.decode("latin-1"), True


@case(300)
def answers_over_websockets(program):
    """An answer of 240 MB took 231 MB over a socket and 688 MB over a WebSocket: both take the same; figures."""
    need(3000)
    most, (line, size) = [], named(4000)
    for is_web in (False, True):
        with Service(program, "--web", "0") as service:
            port = page_port(service)
            with WebClient(port, "ann", wait=200) if is_web else service.client("ann", wait=200) as client:
                client.must(f"datatype {NAME}(int);", f"{NAME} : int -> {NAME}")
                client.send(line + "\n")
                told, first, is_whole = taken(client)
                demand(is_whole and abs(told - size) < 10, f"{told} bytes of {size} came: {short(first)}")
                client.must(*ONE)
            most.append(service.megabytes("VmHWM"))
    demand(most[1] < most[0] + 4, f"{most[0]:.0f} MB over a socket, {most[1]:.0f} over a WebSocket")
    return f"{most[0]:.1f} MB over a socket, {most[1]:.1f} over a WebSocket"


def said_by_all(program, is_web):
    """16 users who are each to be answered 42 MB, in 500 MB: how many were, were without memory, were cut off."""
    users, limits, (line, size), ends = names(16), {"AS": 500 << 20}, named(700), []
    with Service(program, "--web", "0", users=users, limits=limits,
                 settings={"MALLOC_ARENA_MAX": "4", "MALLOC_TOP_PAD_": "4194304"}) as service:
        port = page_port(service)
        clients = [WebClient(port, user, wait=200) if is_web else service.client(user, wait=200) for user in users]
        for client in clients:
            client.must(f"datatype {NAME}(int);", f"{NAME} : int -> {NAME}")

        def hear(client):
            told, first, is_whole = taken(client)
            ends.append("answered" if is_whole and abs(told - size) < 10 else
                        WANTING if is_whole and first.strip() == WANTING else "cut off")
            if is_whole:
                client.must(*ONE)
        for client in clients:
            client.send(line + "\n")
        time.sleep(3)
        readers = [threading.Thread(target=hear, args=(client,)) for client in clients]
        for reader in readers:
            reader.start()
        for reader in readers:
            reader.join()
        service.must_live()
    told = [ends.count(end) for end in ("answered", WANTING)]
    return [*told, len(users) - sum(told)]


@case(300)
def answers_without_memory(program):
    """Where memory was short answers over WebSockets were cut off: each comes whole or is `fault memory`; figures."""
    need(1500)
    told = {kind: said_by_all(program, kind == "WebSockets") for kind in ("sockets", "WebSockets")}
    figures = "; ".join(f"over {kind} {one} answered, {two} without memory, {three} cut off"
                        for kind, (one, two, three) in told.items())
    demand(not told["sockets"][2] and not told["WebSockets"][2], figures)
    return figures
