"""Users who talk to a service that keeps their sessions, and whether these come back as the users were told."""
import threading

from kept import WORK, Kept, NotKept, answers_of, kept_of
from lib import Failed, demand, judge, short

VARIABLES, FUNCTIONS = ["a0", "a1", "a2", "a3"], ["g0", "g1"]
# What each user says first after a return: each of these lines is answered by what the session has.
PROBES = ["it;", *[f"{name};" for name in VARIABLES], *[f"{name}(3);" for name in FUNCTIONS], ":names", ":budget"]
LONG_LINE = 65_537
BUDGET = b"budget: work "


class History:
    """What a user has said since the last reset that was answered, and what was kept at that reset. `said` has pairs of
    a line and its answer, or `None` where that never came. `open` has the lines after these of which any first few may
    be kept as well."""

    def __init__(self, user, kept=Kept()):
        self.user, self.before = user, Kept(kept.base, kept.cleared)
        self.said, self.open = [(line, None) for line in kept.lines], []

    def copy(self):
        other = History(self.user)
        other.before, other.said, other.open = self.before, list(self.said), list(self.open)
        return other

    def lines(self):
        return [line for line, _ in self.said] + self.open

    def shifted(self, answer):
        """What this session is answered where one of full work is told so."""
        if not answer.startswith(BUDGET):
            return answer
        work, rest = answer.removeprefix(BUDGET).split(b",", 1)
        return b"%s%d,%s" % (BUDGET, int(work) - (WORK - self.before.base), rest)

    def compare(self, answers):
        """Each answer that came is that of a batch."""
        for (line, told), answer in zip(self.said, answers):
            wanted = self.shifted(answer)
            demand(told in (None, wanted), f"{self.user}: {short(line)} was answered {short(told or b'')} "
                                           f"and not {short(wanted)}")

    def settle(self, kept, answers):
        """Takes what is kept as said, if it may be, and returns how many lines more that is. The answers are those of a
        batch to all of its lines."""
        self.compare(answers)
        pairs, least = list(zip(self.lines(), answers)), len(self.said)
        for count in range(least, len(pairs) + 1):
            if self.before.then(pairs[:count]) == kept:
                break
        else:
            raise Failed(f"{self.user}: kept is {kept}; answered was {self.before.then(pairs[:least])}, "
                         f"and {len(self.open)} lines more may be kept: {[short(line) for line in self.open]}")
        self.said += [(line, None) for line in self.open[:count - least]]
        self.open = []
        self.forget(pairs[:count])
        return count - least

    def forget(self, pairs):
        """Forgets what is said before the last reset."""
        last = max((place for place, (_, answer) in enumerate(pairs) if answer.startswith(b"reset: ")), default=-1)
        self.before, self.said = self.before.then(pairs[:last + 1]), self.said[last + 1:]


def settle(reference, folder, histories):
    """Compares what a folder keeps, and what users were told, with what a batch of the reference answers. Returns of
    each user how many lines are kept that weren't answered."""
    answers = answers_of(reference, {one.user: one.lines() for one in histories})
    wrong, more = [], {}
    for one in histories:
        try:
            more[one.user] = one.settle(kept_of(folder, one.user), answers[one.user])
        except (Failed, NotKept, OSError) as why:
            wrong.append(str(why) if isinstance(why, Failed) else f"{one.user}: {why}")
    judge(wrong)
    return more


# What users say.

def form(rng):
    """A form of one line, or of several parts, as it comes."""
    name, other, function = rng.choice(VARIABLES), rng.choice(VARIABLES), rng.choice(FUNCTIONS)
    few, many = rng.randrange(10), rng.randrange(1000)
    return rng.choice([
        [f"{name} = {many};"], [f"{name} = {other} + {few};"], [f"{name} = [{few}, {many}];"], [f"{few} * {many};"],
        ["it + 1;"], [f"sum({{x * x : x in index({few})}});"], [f"function {function}(x) = x * {few} + {many};"],
        [f"{function}({few});"], [f"{name} = {function}({few});"], [f"function h{few}(x) = {function}(x);"],
        [f"{few} / 0;"], ["@;"], ["nobody;"], ["1 + T;"], ["function sum(v) = v;"], ["3"], [""],
        [":names"], [":budget"], [":type it;"], [f"{few} +\\", f"{many};"], [f"{few} +\\"],
        [f"{name} = \\", f"[{few}, \\", f"{many}];"], [f"{name} = \\", ":reset"]])


def some_lines(rng):
    """The lines that a user sends next, all at once."""
    if rng.random() < 0.02:
        return [":reset"]
    if rng.random() < 0.02:
        return [f"{rng.randrange(100)}{' ' * rng.randrange(10_000)};"]
    if rng.random() < 0.002:
        return ["1" * LONG_LINE]
    lines = [line for _ in range(rng.choice([1, 1, 1, 3])) for line in form(rng)]
    return lines if rng.random() < 0.5 else lines[:1]


class Talker(threading.Thread):
    """A user who is seated and says lines, first the probes, until the connection ends or `stop` is set. Where it fails
    before it is told that it may, why is in `wrong`. A connection that is reset may lose answers that were sent: the
    system then drops what it hasn't delivered."""

    def __init__(self, opened, history, rng, may_fail, stop=None):
        super().__init__(daemon=True)
        self.opened, self.history, self.rng = opened, history, rng
        self.may_fail, self.stop = may_fail, stop or may_fail
        self.answered, self.wrong, self.is_seated, self.was_reset = 0, None, threading.Event(), False
        self.port, self.lock = None, threading.Lock()

    def run(self):
        try:
            with self.opened() as client:
                self.talk(client)
        except (OSError, Failed) as error:
            self.was_reset = isinstance(error, ConnectionError)
            if not self.may_fail.is_set():
                self.wrong = f"{self.history.user}: {error}"
        self.is_seated.set()

    def talk(self, client):
        self.port, seat = client.socket.getsockname()[1], f"user {self.history.user}"
        told = client.ask(seat)
        demand(told == seat, f"it is answered {short(told)} and has no seat")
        for line in PROBES:
            self.say(client, [line])
        self.is_seated.set()
        while not self.stop.is_set():
            self.say(client, some_lines(self.rng))

    def say(self, client, lines):
        """Sends lines at once, and notes their answers."""
        with self.lock:
            self.history.open = [line.encode() for line in lines]
        client.send("".join(line + "\n" for line in lines))
        while self.history.open:
            told = client.line()
            demand(not told.startswith("(the end)"), f"the connection ended: {short(told)}")
            with self.lock:
                self.history.said.append((self.history.open.pop(0), told.encode("latin-1")))
            self.answered += 1

    def noted(self):
        """What was said by now, while it goes on."""
        with self.lock:
            return self.history.copy()
