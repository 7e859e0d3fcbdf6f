"""The page's port of the program, as scripts speak to it: requests, and users over WebSockets.

A `WebClient` is used as a `Client` of lib.py is, which speaks to the port for lines: each line that it sends is a text
message, and each answer is one. It sends what it is asked to, whether the service takes it or not.
"""
import base64
import os
import socket
import struct

from lib import PATIENCE, Client, Failed, demand, short

MORE, TEXT, BINARY, CLOSE, PING = 0, 1, 2, 8, 9


def asked(port, text, wait=PATIENCE):
    """What is answered to these bytes of a request: the status, the headers by their small names, and the rest."""
    with socket.create_connection(("127.0.0.1", port), timeout=wait) as line:
        line.sendall(text.encode("latin-1"))
        with line.makefile("rb") as answer:
            return heard(answer.read())


def heard(data):
    head, _, rest = data.partition(b"\r\n\r\n")
    first, *rows = head.decode("latin-1").split("\r\n")
    demand(first.startswith("HTTP/1.1 "), f"no answer of HTTP: {short(data)}")
    return int(first.split()[1]), {name.lower(): value for name, value in (row.split(": ", 1) for row in rows)}, rest


def request(path="/", method="GET", host="127.0.0.1", **more):
    """A request; an underscore in a name means a dash."""
    rows = {"Host": host, **{name.replace("_", "-"): value for name, value in more.items()}}
    return f"{method} {path} HTTP/1.1\r\n" + "".join(f"{name}: {value}\r\n" for name, value in rows.items()) + "\r\n"


def upgrade(path="/session", **more):
    """A request for a WebSocket."""
    key = base64.b64encode(os.urandom(16)).decode()
    return request(path, Upgrade="websocket", Connection="Upgrade", Sec_WebSocket_Version="13", Sec_WebSocket_Key=key,
                   **more)


def frame(kind, data):
    """A message in one frame, with a mask, as a browser sends it."""
    size, mask = len(data), os.urandom(4)
    short_size, more = (size, b"") if size < 126 else (126, struct.pack(">H", size)) if size < 65536 else (
        127, struct.pack(">Q", size))
    masked = (int.from_bytes(data, "little") ^ int.from_bytes((mask * (size // 4 + 1))[:size], "little"))
    return bytes([128 | kind, 128 | short_size]) + more + mask + masked.to_bytes(size, "little")


class WebClient(Client):
    """A WebSocket, which may be seated at once. It may ask for subprotocols, and has the one that it gets."""

    def __init__(self, port, user=None, wait=PATIENCE, path="/session", protocols=None, **how):
        super().__init__(port, None, wait, **how)
        more = {"Sec_WebSocket_Protocol": protocols} if protocols else {}
        self.socket.sendall(upgrade(path, **more).encode())
        status, row, self.protocol = self.replies.readline(), b"-", None
        while row.strip():
            row = self.replies.readline()
            if row.lower().startswith(b"sec-websocket-protocol: "):
                self.protocol = row.split(b": ", 1)[1].strip().decode("latin-1")
        demand(status.startswith(b"HTTP/1.1 101 "), f"a WebSocket is answered {short(status)}")
        if user:
            self.must(f"user {user}", f"user {user}")

    def send(self, text):
        """Sends lines, each as a message of its own."""
        for line in text.removesuffix("\n").split("\n"):
            self.say(TEXT, line.encode("latin-1"))

    def say(self, kind, data):
        self.socket.sendall(frame(kind, data))

    def next_frame(self):
        """The next frame: its kind, what it has, and whether it is the last one of its message."""
        front = self.replies.read(2)
        if len(front) < 2:
            return None, b"", True
        size = front[1]
        if size > 125:
            size = int.from_bytes(self.replies.read(2 if size == 126 else 8), "big")
        data = self.replies.read(size)
        return (front[0] & 15 if len(data) == size else None), data, front[0] > 127

    def message(self):
        """The next message, whatever it is: its kind, and what it has. One that is cut off is returned as an end."""
        kind, data, is_last = self.next_frame()
        pieces = [data]
        while not is_last:
            more, data, is_last = self.next_frame()
            if more is None:
                return None, b""
            demand(more == MORE, f"within a message there is a frame of the kind {more}")
            pieces.append(data)
        return kind, b"".join(pieces)

    def line(self):
        """The next answer; an end is reported as such, with its code."""
        kind, data = self.patiently(self.message, "no answer came")
        if kind == TEXT:
            return data.decode("latin-1")
        return "(the end)" if kind is None else f"(the end) {int.from_bytes(data[:2], 'big')}"

    def rest(self):
        """All answers that come until the end, one a line."""
        told = []
        while not (line := self.line()).startswith("(the end)"):
            told.append(line + "\n")
        return "".join(told)

    def halt(self):
        """Says that no more is sent."""
        self.say(CLOSE, struct.pack(">H", 1000))

    def is_ended(self, code):
        """It is ended now, for this reason; after that the user's seat is free."""
        mine = self.line()
        demand(mine == f"(the end) {code}", f"it is not ended with {code}: {short(mine)}")
        demand(not self.patiently(self.replies.read, "the connection wasn't closed"), "more comes behind the end")
        self.close()


def page_port(service):
    """The port of the page, which the service prints second."""
    second = service.run.stdout.readline().decode("latin-1")
    if not second.startswith("page at http://127.0.0.1:"):
        raise Failed(f"no page is told, but {short(second)}")
    return int(second.rsplit(":", 1)[1].rstrip("/\n"))
