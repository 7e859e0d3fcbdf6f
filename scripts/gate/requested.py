"""Requests to the page's port of the program, as scripts/test tries them: which are let in, and to what. Their heads
may come in pieces. Over a WebSocket answers of each length are those over a socket.

`PAGES` has the checks of pages.py, and these.
"""
import socket

from gate.pages import PAGES, check, same, shown
from lib import PATIENCE, demand, short
from web import WebClient, heard

GIVEN = "page.example.org"

# Rows `FIELDS => STATUS`. Who asks for the page: its own host, by any port, and no page of another address.
GUESTS = """\
Host: 127.0.0.1:8080 => 200
Host: 127.0.0.1 => 200
host: LocalHost:1 => 200
HOST: localhost => 200
Host: [::1]:65535 => 200
Host: localhost: => 200
Host: page.example.org => 200
Host: PAGE.example.org:443 => 200
Host: localhost.example.org => 403
Host: localhosts => 403
Host: localhost:80.example.org => 403
Host: localhost:80:80 => 403
Host: 127.0.0.1.example.org => 403
Host: 127.0.0.10 => 403
Host: 127.0.0 => 403
Host: [::1 => 403
Host: example.org => 403
Host: page.example.org.uk => 403
Host: => 403
X: localhost => 403
Host: localhost | Host: localhost => 403
Host: localhost | Host: example.org => 403
Host: localhost:8080 | Origin: http://localhost:8080 => 200
Host: localhost | Origin: https://localhost => 200
Host: localhost:8080 | Origin: http://localhost => 403
Host: localhost | Origin: http://localhost:8080 => 403
Host: localhost:8080 | Origin: http://127.0.0.1:8080 => 403
Host: localhost | Origin: http://example.org => 403
Host: localhost | Origin: null => 403
Host: localhost | Origin: localhost => 403
Host: localhost | Origin: http://localhost/ => 403
Host: localhost | Origin: http://localhost | Origin: http://localhost => 200
Host: localhost | Origin: http://localhost | Origin: http://example.org => 403
Host: example.org | Origin: http://example.org => 403"""

# Rows `LINE | FIELDS => STATUS`: what is asked for, by an own host.
ASKED = """\
GET / HTTP/1.1 | Host: localhost => 200
GET / HTTP/1.0 | Host: localhost => 200
GET /index.html HTTP/1.1 | Host: localhost => 200
GET /?again HTTP/1.1 | Host: localhost => 200
GET /main.js?1 HTTP/1.1 | Host: localhost => 200
GET /lasting.js HTTP/1.1 | Host: localhost => 200
GET /nothing HTTP/1.1 | Host: localhost => 404
GET /main.jsx HTTP/1.1 | Host: localhost => 404
GET /../main.js HTTP/1.1 | Host: localhost => 404
GET //main.js HTTP/1.1 | Host: localhost => 404
GET http://localhost/ HTTP/1.1 | Host: localhost => 404
POST / HTTP/1.1 | Host: localhost => 405
HEAD /main.js HTTP/1.1 | Host: localhost => 200
HEAD /nothing HTTP/1.1 | Host: localhost => 404
HEAD /session HTTP/1.1 | Host: localhost => 400
HEAD / HTTP/1.1 | Host: example.org => 403
OPTIONS / HTTP/1.1 | Host: localhost => 204
OPTIONS * HTTP/1.1 | Host: localhost => 204
OPTIONS /session HTTP/1.1 | Host: localhost => 204
OPTIONS /nothing HTTP/1.1 | Host: localhost => 404
OPTIONS / HTTP/1.1 | Host: localhost | Origin: http://evil.example => 403
GET * HTTP/1.1 | Host: localhost => 404
options / HTTP/1.1 | Host: localhost => 405
get / HTTP/1.1 | Host: localhost => 405
POST /nothing HTTP/1.1 | Host: localhost => 404
POST /session HTTP/1.1 | Host: localhost => 405
GET /session HTTP/1.1 | Host: localhost => 400
GET /nothing HTTP/1.1 | Host: example.org => 403
GET / HTTP/3 | Host: localhost => 400
GET / | Host: localhost => 400
hello => 400
GET / HTTP/1.1 | Host localhost => 400"""

# Rows of the last fields of a request for a WebSocket. `KEY` means its key, and `ANOTHER` another one.
UPGRADES = """\
Connection: Upgrade | Upgrade: websocket | Sec-WebSocket-Version: 13 => 101
Connection: keep-alive, upgrade | Upgrade: WebSocket | Sec-WebSocket-Version: 13 => 101
Connection: Upgrade | Upgrade: websocket | Sec-WebSocket-Version: 13 | Origin: http://localhost => 101
Connection: Upgrade | Upgrade: websocket | Sec-WebSocket-Version: 13 | Origin: http://example.org => 403
Connection: keep-alive | Upgrade: websocket | Sec-WebSocket-Version: 13 => 400
Connection: Upgrade | Upgrade: h2c | Sec-WebSocket-Version: 13 => 400
Connection: Upgrade | Upgrade: websocket | Sec-WebSocket-Version: 12 => 400
Connection: Upgrade | Upgrade: websocket | Sec-WebSocket-Version: 13 | Sec-WebSocket-Key: KEY => 400
Connection: Upgrade | Upgrade: websocket | Sec-WebSocket-Version: 13 | sec-websocket-key: ANOTHER => 400
Connection: Upgrade | Upgrade: websocket => 400"""

FRONTS = [("GET / HTTP/1.1 | ", GUESTS), ("", ASKED),
          ("GET /session HTTP/1.1 | Host: localhost | Sec-WebSocket-Key: KEY | ", UPGRADES)]
KEYS = {"KEY": "dGhlIHNhbXBsZSBub25jZQ==", "ANOTHER": "AQIDBAUGBwgJCgsMDQ4PEA=="}

# Rows `SIZE BYTES FIELDS => STATUS`: a head comes in pieces of this size. It has a field with this many bytes, and this
# many fields more.
HEADS = """\
1 0 0 => 200
2 0 0 => 200
7 0 0 => 200
100 0 0 => 200
1000 8152 0 => 200
1000 8153 0 => 431
1000 100000 0 => 431
1000 1 62 => 200
1000 1 63 => 431"""

# Lengths of texts beside those at which a frame's head grows, or a text is cut.
LENGTHS = [0, 1, 70, 85, 86, 87, 8150, 8151, 8152, 8153, *range(65_488, 65_498), 65_536]


def status_of(port, pieces):
    """The status of the answer to a head that comes in these pieces. An answer may come before the last of them."""
    with socket.create_connection(("127.0.0.1", port), timeout=PATIENCE) as line:
        line.setsockopt(socket.IPPROTO_TCP, socket.TCP_NODELAY, 1)
        try:
            for piece in pieces:
                line.sendall(piece)
        except ConnectionError:
            pass
        data = b""
        while b"\r\n\r\n" not in data and (more := line.recv(65_536)):
            data += more
        return heard(data)[0]


@check("which requests are let in")
def requests_let_in(program):
    """Each request of the rows has its status."""
    count = 0
    with shown(program, "--web-host", GIVEN) as (_, port):
        for front, rows in FRONTS:
            for row in rows.split("\n"):
                parts, wanted = row.split(" => ")
                text = (front + parts).replace(" | ", "\r\n") + "\r\n\r\n"
                for word, key in KEYS.items():
                    text = text.replace(word, key)
                same(f"the status of {short(text)}", status_of(port, [text.encode()]), int(wanted))
                count += 1
    return f"{count} requests"


@check("heads in pieces")
def heads_in_pieces(program):
    """A head is read however it comes, up to its greatest size. One that is cut off is answered by nothing."""
    with shown(program) as (service, port):
        for row in HEADS.split("\n"):
            size, count, fields, _, wanted = row.split()
            head = b"GET / HTTP/1.1\r\nHost: localhost\r\nX: " + b"x" * int(count) + b"\r\n" + b"Y: y\r\n" * int(fields)
            head += b"\r\n"
            pieces = [head[place:place + int(size)] for place in range(0, len(head), int(size))]
            same(row, status_of(port, pieces), int(wanted))
        for front in (b"GET / HT", b"GET / HTTP/1.1\r\nHost: localhost\r\n"):
            with socket.create_connection(("127.0.0.1", port), timeout=PATIENCE) as line:
                line.sendall(front)
                line.shutdown(socket.SHUT_WR)
                same(f"the answer to {front}", line.recv(100), b"")
        service.must_live()


@check("answers of each length")
def answers_of_each_length(program):
    """Over a WebSocket an answer is the one over a socket, in as many frames as it needs."""
    lines = [f"dist(`a, {length});" for length in LENGTHS] + [f"index({count});" for count in (20_000, 50_000)]
    with shown(program, users=["ann", "bob"]) as (service, port):
        with WebClient(port, "ann") as ann, service.client("bob") as bob:
            for line in lines:
                mine, wanted = ann.ask(line), bob.ask(line)
                demand(mine == wanted, f"{line} is answered {short(mine)}, and over a socket {short(wanted)}")
            ann.leave()
            bob.leave()
    return f"{len(lines)} answers"
