"""What scripts/stress/attack says to the program: sessions, lines of deep and large types, and long answers."""
import subprocess
import time

from lib import ONE, Service, Skipped, available_megabytes, compare, demand, ending, prepared, short
from stress.shapes import LONGEST, WORST, filled, local_names, made, tree
from stress.spent import spent

WANTING = "fault memory (work 0)"


def need(megabytes):
    free = available_megabytes()
    if free < megabytes:
        raise Skipped(f"{free} MB of memory are available, and it may take {megabytes}")


def swallow(client):
    """Takes in an answer without keeping it: its first bytes, its last ones, and how many there are."""
    piece = bytearray(1 << 20)
    first, last, count = b"", b"", 0
    while not last.endswith(b"\n"):
        got = client.socket.recv_into(piece)
        demand(got, f"the answer ends after {count} bytes")
        first = (first + piece[:min(got, 100)])[:100] if len(first) < 100 else first
        last = (last + piece[max(0, got - 100):got])[-100:]
        count += got
    return first.decode("latin-1"), last.decode("latin-1"), count


def in_batch(program, said, limits=None, user="ann"):
    """Says the lines of a session to `batch`, and compares the answers."""
    data = "".join(line + "\n" for line in [f"user {user}", *(line for line, _ in said)]).encode("latin-1")
    ran = subprocess.run([program, "batch", user], input=data, stdout=subprocess.PIPE, stderr=subprocess.PIPE,
                         preexec_fn=prepared(limits or {}, ()), check=False)
    demand(ran.returncode == 0, ending(ran.returncode))
    compare([("", f"user {user}"), *said], ran.stdout.decode("latin-1").split("\n")[:-1])


def in_service(program, said, limits=None, user="ann"):
    """Says the lines of a session to `serve`, each after the answer to the one before, and compares the answers."""
    with Service(program, users=[user], limits=limits) as service, service.client(user) as client:
        for line, wanted in said:
            try:
                mine = client.ask(line)
            except OSError as error:
                mine = f"({error})"
            if mine.startswith("(") and service.run.poll() is None:
                time.sleep(0.2)
            service.must_live()
            compare([(line, wanted)], [mine])
        client.leave()


# What is said, with what is wanted.

def nests():
    """w puts a value into a sequence, and each of w1 to w7 calls the one before three times: wN makes 3**N levels."""
    said = [("function w(x) = [x];", "w : a -> [a]")]
    for level in range(1, 8):
        below, result = f"w{level - 1}" if level > 1 else "w", "[" * 3**level + "a" + "]" * 3**level
        said.append((f"function w{level}(x) = {below}({below}({below}(x)));", f"w{level} : a -> {result}"))
    return said


def nest_cost(level):
    return 2 + 3 * nest_cost(level - 1) if level else 3


def nested_type():
    calls = [7, 6, 6, 5, 4, 4, 3, 2, 2]
    count, cost = sum(3**level for level in calls), 1 + sum(nest_cost(level) for level in calls)
    written = f"{'[' * count}1{']' * count} : {'[' * count}int{']' * count}"
    line = "x = " + "".join(f"w{level}(" for level in calls) + "1" + ")" * len(calls) + ";"
    return [*nests(), (line, f"x = {written} (work {cost}, depth {cost})"),
            ("x;", f"it = {written} (work 1, depth 1)"), ("#x;", "it = 1 : int (work 2, depth 2)"),
            (":reset", "reset: lines 11")]


LARGE = {  # three functions d, whose results have types of 4,095 nodes: equal halves, and two without equal parts
    "pairs of equals": ["function p(x) = (x, x);", "function d(x) = p(p(p(p(p(p(p(p(p(p(p(x)))))))))));"],
    "sequences": [line for line, _ in nests()] + ["function d(x) = w7(w6(w6(w5(w4(w4(w3(w2(w1(w1(w(w(x))))))))))));"],
    "pairs": ["function p(x) = (1, x);", "function p1(x) = p(p(p(p(x))));", "function p2(x) = p1(p1(p1(p1(x))));",
              "function p3(x) = p2(p2(p2(p2(x))));", "function p4(x) = p3(p3(p3(p3(x))));",
              "function d(x) = p4(p4(p4(p4(p4(p4(p4(p3(p3(p3(p2(p2(p2(p1(p1(p1(p(p(p(x)))))))))))))))))));"],
}


# Lines that are hard to type.

def over_names(count, call):
    """A function that calls another with each of its names: how its answer starts and ends, and the line."""
    names = local_names(count)
    line = f"function hh{tree(names)} = [{','.join(call.format(name) for name in names)}];"
    return "hh : ((", ") -> [int]", line


def hard_lines():
    """Lines that took up to 26 s and 3.4 GB, each with what is said before and how its answer starts and ends."""
    wide, many, fault = local_names(2000), local_names(2000), "fault type (work 0)"
    sequences = LARGE["sequences"]
    for count in (90, 500, 2000):
        yield f"{count} names", sequences, *over_names(count, "#d({})")
    yield "4,600 names", sequences, fault, "", over_names(4600, "#d({})")[2]
    yield "400 trees", [f"function e{tree(wide)} = 1;"], fault, "", over_names(400, "e({})")[2]
    yield "24,000 uses", [], "hh : ((", "]", filled(59_000, f"function hh{tree(many)} = [", many[:1], "];")
    yield "a let", [], "hh : ((", "]", filled(59_000, f"function hh(x) = let {tree(many)} = x in [", many[:1], "];")
    for title, (name, genes) in WORST.items():
        before, line = made(name, LONGEST, genes)
        yield title, before, "", "", line


def typed_slowly(program, seconds, megabytes):
    """The first three hard lines that take more or are answered wrong, and the figures of all until then. A session is
    ended after 10 s."""
    wrong, figures = [], []
    for title, before, start, end, line in hard_lines():
        if len(wrong) == 3:
            break
        took = spent([program, "batch", "ann"], before, line, 10)
        figures.append(f"{title} {took.seconds:.2f} s, {took.megabytes:.0f} MB")
        if took.seconds > seconds or took.megabytes > megabytes:
            wrong.append(figures[-1])
        elif not took.reply.startswith(start) or not took.reply.endswith(end):
            wrong.append(f"{title}: {short(took.reply)}")
    return wrong, "; ".join(figures)


# Long answers.

def long_names(program, settings):
    name, count = "z" * 60_000, 20_000
    with Service(program, settings=settings) as service:
        with service.client("ann", wait=250) as client:
            client.must(f"datatype {name}(int);", f"{name} : int -> {name}")
            begun = time.monotonic()
            client.send(f"dist({name}(1), {count});\n")
            first, last, size = swallow(client)
            took = time.monotonic() - begun
            after = [service.megabytes("VmRSS")]
            if first != WANTING + "\n":
                demand(first.startswith("it = [zzz") and last.endswith(f"zzz] (work {2 * count + 5}, depth 5)\n"),
                       f"the answer is {short(first)} .. {short(last)}")
                demand(size == 7 + (len(name) + 5) * count - 2 + 4 + len(name) + 24, f"it has {size} bytes")
            client.must(":reset", "reset: lines 2")
            after.append(service.megabytes("VmRSS"))
            client.leave()
        for _ in range(50):
            with service.client("ann") as client:
                client.must(*ONE)
                client.leave()
        after.append(service.megabytes("VmRSS"))
        left = ", ".join(f"{figure:.0f}" for figure in after)
        return f"{size >> 20} MB in {took:.1f} s, at most {service.megabytes('VmHWM'):.0f} MB, left {left} MB"
