"""Where scripts/check_package tries a package, and what runs its unit there.

A place has the package's files: a Debian that debootstrap made, or a bare folder. A keeper runs the unit: systemd,
which systemd-nspawn boots in the Debian; or this machine's systemd, by systemd-run; or no systemd, and then prlimit and
setpriv give the command line the unit's limits.
"""
import contextlib
import os
import re
import shlex
import shutil
import signal
import subprocess
import sys
import time
from pathlib import Path

TOP = Path(__file__).resolve().parent.parent
sys.path.insert(0, str(TOP / "scripts"))
from lib import Failed, demand, free_port  # noqa: E402

UNIT = "/usr/lib/systemd/system/pazkindu@.service"
SESSIONS = "/var/lib/pazkindu/sessions"
NOBODY = 65534
INCLUDED = "systemd,systemd-sysv,man-db,iproute2,python3,haproxy,procps"
# Limits that are said by hand come before those that the generator makes of the machine's memory.
LIMITS = "etc/systemd/system/pazkindu@.service.d/90-check.conf"
LIMITED = "[Service]\nLimitAS=4000000K\nMemoryMax=5G\n"
MIRROR = "http://deb.debian.org/debian"
SECONDS = 20
# What a Debian keeps of its own accord, whatever is installed or removed.
CHANGING = re.compile(r"(proc|sys|dev|run|tmp|root|srv|(etc|var)/\.updated|var/(lib/(dpkg|haproxy|systemd)|cache|log|tmp))/")


def said(words, data=b"", may_fail=False):
    """What a command says, standard error included."""
    ran = subprocess.run([str(word) for word in words], input=data, stdout=subprocess.PIPE, stderr=subprocess.STDOUT,
                         check=False)
    text = ran.stdout.decode("latin-1")
    demand(may_fail or ran.returncode == 0, f"{' '.join(map(str, words))}: status {ran.returncode} {text[-300:]!r}")
    return text


def is_root():
    return os.geteuid() == 0


class Bare:
    """A folder with nothing but the package, by `dpkg --root`; its commands are this machine's."""
    kind = "nothing but the package, by dpkg --root"

    def __init__(self, folder):
        self.folder = Path(folder)
        (self.folder / "var/lib/dpkg/updates").mkdir(parents=True)
        (self.folder / "var/lib/dpkg/status").touch()

    def path(self, path):
        return f"{self.folder}{path}"

    def run(self, *words, **how):
        return said(words, **how)

    def lent(self, file):
        """Where commands find a file of this machine."""
        return file

    def dpkg(self, *words):
        force = ["--force-depends", "--force-not-root", "--force-script-chrootless"]
        return said(["dpkg", f"--root={self.folder}", "--log=/dev/null", *force, *words])

    def files(self):
        """All paths that the package alone decides about."""
        return {path for path in (str(path.relative_to(self.folder)) for path in self.folder.rglob("*"))
                if not CHANGING.match(path + "/")}


class Debian(Bare):
    """A Debian of its own, made by debootstrap, or copied from one that was."""

    def __init__(self, folder, base=None):
        self.folder = Path(folder)
        if base:
            said(["cp", "-a", base, folder])
        else:
            said(["debootstrap", "--variant=minbase", f"--include={INCLUDED}", "bookworm", folder, MIRROR])
        self.kind = f"Debian {(self.folder / 'etc/debian_version').read_text().strip()}, by debootstrap"

    def path(self, path):
        return path

    def run(self, *words, **how):
        return said(["chroot", self.folder, *words], **how)

    def lent(self, file):
        shutil.copy(file, self.folder / "srv")
        return f"/srv/{Path(file).name}"

    def dpkg(self, *words):
        return self.run("dpkg", *words)


# The unit as it is, for what runs it without systemd.

def service(place):
    """The rows of the unit's [Service], each key with its values, with the limits that are said by hand."""
    rows = {}
    text = Path(f"{place.folder}{UNIT}").read_text().split("[Service]")[1].split("[Install]")[0]
    text = re.sub("(?m)^(LimitAS|MemoryMax)=.*$", "", text).replace("\\\n", "") + LIMITED.split("\n", 1)[1]
    for line in text.splitlines():
        if line and not line.startswith("#"):
            key, value = line.split("=", 1)
            rows.setdefault(key, []).append(value)
    return rows


def settings(place, name):
    """What the unit's lines and the file of a server say, as systemd takes them."""
    found = [pair.replace("%i", name) for line in service(place)["Environment"] for pair in shlex.split(line)]
    for path in sorted(Path(f"{place.folder}/etc/pazkindu/{name}.d").glob("*.conf")):
        found += [line for line in path.read_text().splitlines() if re.match(r"[A-Z_]+=", line)]
    return dict(pair.split("=", 1) for pair in found)


def command(place, name):
    """The words of ExecStart, with ${ONE} put in, and $SEVERAL split at blanks; the folder of the sessions is that of
    the place."""
    values, out = settings(place, name), []
    for word in service(place)["ExecStart"][0].split():
        if re.fullmatch(r"\$[A-Z_]+", word):
            out += values[word[1:]].split()
        else:
            out.append(re.sub(r"\$\{([A-Z_]+)\}", lambda found: values[found[1]], word))
    return [f"{place.folder}{out[0]}", *(f"{place.folder}{word}" if word.startswith(SESSIONS) else word
                                         for word in without_control(out[1:]))]


def without_control(words):
    """The words without an operator's socket, whose folder systemd makes."""
    at = words.index("--control")
    return words[:at] + words[at + 2:]


def number(text):
    """A size of the unit, as 4000000K."""
    return int(text.rstrip("KMG")) << {"K": 10, "M": 20, "G": 30}.get(text[-1], 0)


class Keeper:
    """What runs servers of the unit in a place."""

    def __init__(self, place):
        self.place = place

    def __enter__(self):
        return self

    def __exit__(self, *_):
        pass

    def run(self, *words, **how):
        return said(words, **how)

    def configure(self, name, users, **values):
        """Writes the roster and the settings of a server, and answers its port."""
        port, folder = free_port(), self.configured(name)
        shutil.rmtree(folder, ignore_errors=True)
        folder.mkdir(parents=True)
        (folder / "users").write_text("".join(f"{user}\n" for user in users))
        rows = {"PORT": port, **values}
        (folder / "check.conf").write_text("".join(f"{key}={value}\n" for key, value in rows.items()))
        if not isinstance(self, Booted):
            with open(folder / "check.conf", "a", encoding="ascii") as file:
                file.write(f"USERS=--users {folder}/users\n")
        return port

    def configured(self, name):
        """Where the roster and the settings of a server are, as this machine sees them."""
        return Path(f"{self.place.folder}/etc/pazkindu/{name}.d")

    def sessions(self, name):
        """Where the sessions of a server are, as this machine sees them."""
        return Path(f"{self.place.folder}{SESSIONS}/{name}")

    def forget(self, name):
        """Forgets the sessions of a server that has ended."""
        for path in self.sessions(name).glob("*"):
            path.unlink()

    def wait_until(self, holds, why, seconds=SECONDS):
        until = time.monotonic() + seconds
        while not holds():
            demand(time.monotonic() < until, f"{why} within {seconds} s")
            time.sleep(0.05)

    def status(self, pid):
        """What the system keeps of a process."""
        rows = (line.partition(":") for line in self.run("cat", f"/proc/{pid}/status").splitlines())
        return {key: value.strip() for key, _, value in rows}

    def is_listening(self, name, port):
        return f"listening on 127.0.0.1:{port}\n" in self.told(name)


class Limited(Keeper):
    """No systemd: prlimit and setpriv, with the limits of the unit that they know."""
    kind = "prlimit and setpriv, with the unit's limits; its other lines were not tried"

    def __init__(self, place):
        super().__init__(place)
        self.servers = {}

    def __exit__(self, *_):
        for server in self.servers.values():
            server.kill()
            server.wait()

    def start(self, name):
        rows, values = service(self.place), settings(self.place, name)
        limits = [f"--{key}={number(rows[row][0])}" for key, row in
                  (("as", "LimitAS"), ("stack", "LimitSTACK"), ("nofile", "LimitNOFILE"))]
        nobody = [f"--reuid={NOBODY}", f"--regid={NOBODY}", "--clear-groups", "--bounding-set=-all"]
        nobody = nobody if is_root() else []
        self.sessions(name).mkdir(mode=0o700, parents=True, exist_ok=True)
        if nobody:
            os.chown(self.sessions(name), NOBODY, NOBODY)
        words = ["prlimit", *limits, "setpriv", "--no-new-privs", *nobody, *command(self.place, name)]
        with open(f"{self.place.folder}/{name}.log", "wb") as log:
            self.servers[name] = subprocess.Popen(words, stdin=subprocess.DEVNULL, stdout=log, stderr=log,
                                                  env={"PATH": os.environ["PATH"], **values})

    def told(self, name):
        return Path(f"{self.place.folder}/{name}.log").read_text()

    def pid(self, name):
        return self.servers[name].pid if self.servers[name].poll() is None else 0

    def is_over(self, name):
        return not self.pid(name)

    def kill(self, name):
        self.servers[name].kill()
        self.servers[name].wait()
        self.start(name)

    def stop(self, name):
        self.servers[name].terminate()
        demand(self.servers[name].wait(SECONDS) == -signal.SIGTERM, "it is ended by another signal than SIGTERM")


class Managed(Keeper):
    """A systemd: its `run` reaches systemctl."""

    def __init__(self, place):
        super().__init__(place)
        self.starts = {}

    def unit(self, name):
        return f"pazkindu@{name}.service"

    def show(self, name, *keys):
        text = self.run("systemctl", "show", self.unit(name), f"--property={','.join(keys)}")
        rows = dict(line.split("=", 1) for line in text.splitlines())
        return rows[keys[0]] if len(keys) == 1 else rows

    def start(self, name):
        """Where its words are wrong, it may have ended before this is over."""
        self.run("systemctl", "start", self.unit(name), may_fail=True)

    def told(self, name):
        """What the server has said since its last start, of which systemd itself knows nothing after a stop."""
        self.starts[name] = self.show(name, "InvocationID") or self.starts[name]
        return self.run("journalctl", "-q", "-o", "cat", f"_SYSTEMD_INVOCATION_ID={self.starts[name]}")

    def pid(self, name):
        return int(self.show(name, "MainPID"))

    def is_over(self, name):
        return self.show(name, "ActiveState") == "inactive"

    def kill(self, name):
        """Kills a server, which systemd starts again."""
        self.run("systemctl", "kill", "--signal=KILL", self.unit(name))

    def stop(self, name):
        self.run("systemctl", "stop", self.unit(name))


class Transient(Managed):
    """This machine's systemd, by systemd-run: every line of the unit's [Service], and the program at its place,
    which may be below a /tmp that the unit doesn't see. It keeps no sessions, which would be in a folder of this
    machine."""
    kind = "systemd-run, with every line of the unit"

    def unit(self, name):
        return f"pazkindu-check-{name}.service"

    def start(self, name):
        rows, lines = service(self.place), [f"--property=BindReadOnlyPaths={self.place.folder}"]
        for key, values in rows.items():
            for value in values:
                if key == "EnvironmentFile":
                    value = f"-{self.configured(name)}/*.conf"
                if "KEEP=" in value:
                    value = "KEEP="
                value = value.replace("%i", self.unit(name))
                if key not in ("ExecStart", "ExecStartPre", "ExecStartPost", "ExecStop", "ExecStopPost", "StateDirectory",
                               "StateDirectoryMode"):
                    lines.append(f"--property={key}={value}")
        words = rows["ExecStart"][0].split()
        self.run("systemd-run", "--quiet", f"--unit={self.unit(name)}", *lines, f"{self.place.folder}{words[0]}",
                 *without_control(words[1:]))


class Booted(Managed):
    """A systemd of the Debian's own, which systemd-nspawn boots there. It has this machine's network, unless more words
    for systemd-nspawn say another one."""
    kind = "systemd, booted in it by systemd-nspawn"

    def __init__(self, place, *more):
        super().__init__(place)
        self.cgroups, self.boot, self.leader, self.more = [], None, None, more
        self.patience = 3 * SECONDS
        self.name = f"pazkindu-check-{os.getpid()}-{Path(place.folder).name}"

    def __enter__(self):
        limits = Path(self.place.folder) / LIMITS
        limits.parent.mkdir(parents=True, exist_ok=True)
        limits.write_text(LIMITED)
        words = ["systemd-nspawn", "--quiet", "--boot", "--console=pipe", f"--machine={self.name}",
                 f"--directory={self.place.folder}", *self.more]
        apart = not Path("/run/systemd/system").is_dir()
        if apart:
            words[1:1] = ["--register=no", "--keep-unit"]
            self.cgroups = own_cgroups(self.name)
        self.console = open(f"{self.place.folder}.console", "w+b")
        self.boot = subprocess.Popen(words, stdin=subprocess.DEVNULL, stdout=self.console, stderr=self.console,
                                     start_new_session=True, preexec_fn=lambda: enter(self.cgroups))
        try:
            self.wait_until(self.has_leader, f"systemd-nspawn boots nothing: {self.console_text()}")
            self.wait_until(lambda: self.state() in ("running", "degraded"), "systemd isn't up", self.patience)
            if apart:
                self.free_cgroups()
        except BaseException:
            self.__exit__()
            raise
        return self

    def __exit__(self, *_):
        if self.leader and self.boot.poll() is None:
            with contextlib.suppress(Failed):
                self.run("systemctl", "poweroff")
        with contextlib.suppress(subprocess.TimeoutExpired):
            self.boot.wait(SECONDS)
        if self.boot.poll() is None:
            self.boot.kill()
            self.boot.wait()
        leave(self.cgroups)
        with contextlib.suppress(OSError):
            Path("/run/systemd/nspawn/propagate", self.name).rmdir()

    def console_text(self):
        return Path(self.console.name).read_text(errors="replace")[-300:]

    def has_leader(self):
        demand(self.boot.poll() is None, f"systemd-nspawn ends: {self.console_text()}")
        children = Path(f"/proc/{self.boot.pid}/task/{self.boot.pid}/children").read_text().split()
        booted = [child for child in children if Path(f"/proc/{child}/comm").read_text() == "systemd\n"]
        self.leader = booted[0] if booted else None
        return self.leader

    def run(self, *words, **how):
        spaces = ["--mount", "--uts", "--ipc", "--pid", "--cgroup", "--net"]
        return said(["nsenter", f"--target={self.leader}", *spaces, *words], **how)

    def state(self):
        return self.run("systemctl", "is-system-running", may_fail=True).strip()

    def free_cgroups(self):
        """systemd-nspawn lends the older kind of control groups to be read only; these are our own, so we write."""
        for controller in ("memory", "pids"):
            folder = f"/sys/fs/cgroup/{controller}"
            if self.run("stat", "-f", "-c", "%T", folder, may_fail=True).strip() == "cgroupfs":
                self.run("mount", "-o", "remount,bind,rw", folder)
        self.run("systemctl", "daemon-reexec")

    def sessions(self, name):
        """A folder of a user that systemd makes up is elsewhere, and a link leads there."""
        return Path(f"{self.place.folder}{SESSIONS.replace('/lib/', '/lib/private/')}/{name}")

    def memory(self, name, *files):
        """A number of the control group that holds the server's memory, by its older or its newer name, or nothing."""
        group = self.show(name, "ControlGroup")
        for path in (f"/sys/fs/cgroup/memory{group}/{files[0]}", f"/sys/fs/cgroup{group}/{files[1]}"):
            text = self.run("cat", path, may_fail=True).strip()
            if text.isdigit():
                return int(text)
        return None


# Control groups of our own, where this machine's first process is no systemd that would give them.

def own_cgroups(name):
    """A new group in each hierarchy of this machine, below the one that we are in."""
    made = []
    for row in Path("/proc/self/cgroup").read_text().splitlines():
        _, controllers, path = row.split(":", 2)
        mounted = Path("/sys/fs/cgroup") / (controllers.removeprefix("name=") or "unified")
        if not mounted.is_dir():
            mounted = mounted.parent
        group = Path(f"{mounted}{path.rstrip('/')}") / name
        with contextlib.suppress(OSError):
            group.mkdir()
            made.append(group)
            for inherited in ("cpuset.cpus", "cpuset.mems"):
                if (group / inherited).exists():
                    (group / inherited).write_text((group.parent / inherited).read_text())
    return made


def enter(groups):
    for group in groups:
        (group / "cgroup.procs").write_text("0")


def leave(groups):
    """Takes the groups away, the innermost ones first; those whose last process is still ending are tried again."""
    for _ in range(20):
        for group in groups:
            for folder, _, _ in os.walk(group, topdown=False):
                with contextlib.suppress(OSError):
                    os.rmdir(folder)
        if not any(group.exists() for group in groups):
            return
        time.sleep(0.1)


def place(folder, base):
    """A Debian, where one can be had, else a bare folder."""
    if is_root() and (base or shutil.which("debootstrap")):
        try:
            return Debian(folder, base)
        except Failed as why:
            print(f"there is no Debian: {why}", flush=True)
        shutil.rmtree(folder, ignore_errors=True)
    return Bare(folder)


def keepers(where):
    """What may run the unit there, the fullest first."""
    if isinstance(where, Debian) and shutil.which("systemd-nspawn"):
        yield Booted
    if is_root() and Path("/run/systemd/system").is_dir() and shutil.which("systemd-run"):
        yield Transient
    yield Limited
