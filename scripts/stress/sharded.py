"""What scripts/shards has written, at work: its processes, started as their unit says, and HAProxy in front of them."""
import os
import re
import select
import shlex
import shutil
import socket
import subprocess
import sys
import tempfile
import time
from pathlib import Path

from lib import PATIENCE, SCRIPTS, Client, Failed, Process, demand, ending, short, started

UNITS = {"K": 1 << 10, "M": 1 << 20, "G": 1 << 30}


def found_haproxy():
    """HAProxy's program and version; without one nothing here can be tried."""
    path = shutil.which("haproxy", path="/usr/sbin:/usr/local/sbin:/usr/bin:/usr/local/bin")
    path = shutil.which("haproxy") or path
    if not path:
        sys.exit(f"{Path(sys.argv[0]).name} needs haproxy, which isn't here (on Debian: apt-get install haproxy)")
    said = subprocess.run([path, "-v"], stdout=subprocess.PIPE, check=True).stdout.decode()
    return path, re.search(r"version (\S+)", said)[1]


def shards(*words):
    """Runs scripts/shards: its status, and the lines of what it printed and of what it complained about."""
    ran = subprocess.run([SCRIPTS / "shards", *map(str, words)], capture_output=True, check=False)
    return ran.returncode, ran.stdout.decode().splitlines(), ran.stderr.decode().splitlines()


def kept_folder(folder):
    """Where the processes of a folder keep their sessions."""
    return Path(folder).with_suffix(".kept")


def prepared_folder(folder, names, program, *words):
    """Has a roster spread over processes on ports that the system chooses, and answers what was printed."""
    roster = Path(folder).with_suffix(".roster")
    roster.write_text("".join(name + "\n" for name in names), encoding="ascii")
    kept_folder(folder).mkdir(exist_ok=True)
    own = ["--port", 0, "--first-port", 0, "--keep", kept_folder(folder)]
    status, told, complaint = shards(*own, "--program", program, *words, roster, folder)
    demand(status == 0, f"scripts/shards: {short(' '.join(complaint))}")
    return told


class Shard(Process):
    """One process, started by the words and the limit of its unit as systemd would."""

    def __init__(self, folder, number):
        unit = (folder / "pazkindu@.service").read_text(encoding="ascii").replace("\\\n", "")
        rows = [line.split("=", 1) for line in unit.splitlines() if re.match("[A-Z][A-Za-z]+=", line)]
        pairs = [pair for key, value in rows if key == "Environment" for pair in shlex.split(value)]
        for path in sorted((folder / f"{number}.d").glob("*.conf")):
            pairs += [line for line in path.read_text(encoding="ascii").splitlines() if re.match("[A-Z_]+=", line)]
        self.own, self.number, rows = dict(pair.split("=", 1) for pair in pairs), number, dict(rows)
        self.users = (folder / f"{number}.d" / "users").read_text(encoding="ascii").split()
        words = [word for given in shlex.split(rows["ExecStart"]) for word in self.expanded(given)]
        if "--control" in words:  # its folder is made by systemd
            del words[words.index("--control"):words.index("--control") + 2]
        self.errors = tempfile.TemporaryFile()
        limit = int(rows["LimitAS"][:-1]) * UNITS[rows["LimitAS"][-1]]
        self.run = started(words, limits={"AS": limit}, stderr=self.errors)
        self.port = int(self.own["PORT"])

    def expanded(self, word):
        """A word of a command line: `$NAME` alone means the words of a setting, `${NAME}` its text, `%i` the number."""
        if re.fullmatch(r"\$[A-Z_]+", word):
            return self.own[word[1:]].split()
        word = word.replace("%i", str(self.number))
        return [re.sub(r"\$\{([A-Z_]+)\}", lambda found: self.own[found[1]], word)]

    def must_listen(self):
        if not self.listens():
            status, _ = self.ended()
            raise Failed(f"it doesn't listen: {ending(status)} {short(self.complaint())}")

    def end(self):
        self.run.kill()
        self.run.wait()


class Front(Process):
    """HAProxy with the configuration of a folder, in place of another where there is one, whose connections go on."""

    def __init__(self, path, folder, old=None):
        text, config = (folder / "haproxy.cfg").read_text(encoding="ascii"), folder / "tried.cfg"
        config.write_text(text if os.geteuid() == 0 else re.sub("    (user|group) haproxy\n", "", text), encoding="ascii")
        self.port, self.web = [int(port) for port in [*re.findall(r"bind 127\.0\.0\.1:([0-9]+)", text), 0][:2]]
        self.errors = tempfile.TemporaryFile()
        more = ["-sf", str(old.run.pid)] if old else []
        self.run = started([path, "-db", "-f", config, *more], stderr=self.errors)
        until = time.monotonic() + 6 * PATIENCE
        while time.monotonic() < until:
            self.must_live()
            try:
                self.client().close()
                return
            except ConnectionRefusedError:
                time.sleep(0.02)
        raise Failed(f"HAProxy doesn't listen: {short(self.complaint())}")


class Cluster:
    """All processes of a folder, and HAProxy."""

    def __init__(self, path, folder):
        self.path, self.folder = path, Path(folder)
        self.shards, self.front, self.old = {}, None, []

    def __enter__(self):
        try:
            numbers = sorted(int(path.stem) for path in self.folder.glob("*.d"))
            self.shards = {number: Shard(self.folder, number) for number in numbers}
            for shard in self.shards.values():
                shard.must_listen()
            self.front = Front(self.path, self.folder)
        except BaseException:
            self.__exit__()
            raise
        return self

    def __exit__(self, *_):
        for one in [self.front, *self.old, *self.shards.values()]:
            if one:
                one.run.kill()
                one.run.wait()

    def reload(self):
        """Has HAProxy read its files again."""
        self.old.append(self.front)
        self.front = Front(self.path, self.folder, self.front)

    def again(self, number):
        """Starts a process that has ended, or is new."""
        self.shards[number] = Shard(self.folder, number)
        self.shards[number].must_listen()

    def client(self, user=None, **how):
        return Client(self.front.port, user, **how)

    def must_live(self):
        for one in [self.front, *self.shards.values()]:
            one.must_live()


def heard(port, parts, ends, seconds=PATIENCE):
    """Says parts of bytes, with seconds to wait between them, and answers all that comes until the end."""
    got = b""
    with Client(port, wait=seconds) as client:
        try:
            for part in parts:
                if isinstance(part, bytes):
                    client.socket.sendall(part)
                else:
                    time.sleep(part)
            if ends:
                client.socket.shutdown(socket.SHUT_WR)
            while True:
                more = client.socket.recv(1 << 16)
                if not more:
                    return got
                got += more
        except TimeoutError:
            raise Failed(f"the connection wasn't ended within {seconds} s, after {short(got)}") from None
        except OSError as error:
            return got + f"({error})".encode()


def heard_of_flood(port, count, seconds=PATIENCE):
    """Sends this number of bytes without a line end, as far as they are taken: how many, and all that came."""
    sent, got, until = 0, b"", time.monotonic() + seconds
    with Client(port) as client:
        client.socket.setblocking(False)
        while sent < count:
            demand(time.monotonic() < until, f"neither taken nor ended within {seconds} s")
            readable, writable, _ = select.select([client.socket], [client.socket], [], 1)
            try:
                if readable:
                    more = client.socket.recv(1 << 16)
                    if not more:
                        break
                    got += more
                if writable:
                    sent += client.socket.send(b"x" * min(1 << 16, count - sent))
            except OSError:
                break
    return sent, got
