"""What scripts/stress/attack says with names that a hashed table would look for at one place."""
import subprocess
import tempfile
from pathlib import Path

from lib import SCRIPTS, Skipped, demand, short
from stress.spent import spent

COUNT = 9_200
PART = "x"


def colliding_names(count):
    """Names that the kit hashes like `PART`. A program in C finds them within 6 seconds of a processor."""
    with tempfile.TemporaryDirectory() as folder:
        search = Path(folder, "colliding_names")
        source = SCRIPTS / "stress" / "colliding_names.c"
        try:
            subprocess.run(["cc", "-O2", "-o", search, source], check=True)
        except FileNotFoundError as error:
            raise Skipped("there is no C compiler, and a program in C looks for the names") from error
        found = subprocess.run([search, PART, str(count)], stdout=subprocess.PIPE, check=True)
    return found.stdout.decode().split()


def lines_of_one_name():
    """Lines that name `PART` as often as there is room for it, by what they are, each with how its answer starts."""
    uses = ",".join([PART] * 32_600)
    return {"a sequence": (f"[{uses}];", "it = [1, 1, "), "a function": (f"function h(y) = [{uses}];", "h : a -> [int]"),
            "a type": (f":type [{uses}];", "type: [int]"), "a fault": (f"[{uses},T];", "fault type (work 0)")}


def names_that_collide(program, seconds):
    """Each line takes at most this number of seconds after 9,200 names that collide; figures, also of other names."""
    others = [f"y{place:06}" for place in range(COUNT)]
    took = {}
    for kind, called in (("other names", others), ("names that collide", colliding_names(COUNT))):
        before = [f"{name} = 1;" for name in [*called, PART]]
        for title, (line, start) in lines_of_one_name().items():
            one = spent([program, "batch", "ann"], before, line)
            demand(one.reply.startswith(start), f"{title} is answered {short(one.reply)}")
            took[kind, title] = one.seconds
    worst = {kind: max(figure for (which, _), figure in took.items() if which == kind) for kind, _ in took}
    figures = ", ".join(f"{figure:.2f} s with {kind}" for kind, figure in worst.items())
    demand(max(took.values()) < seconds, figures)
    return figures
