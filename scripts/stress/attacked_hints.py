"""What scripts/stress/attack says for hints: lines that are refused, and whose hints look at much."""
import resource
import subprocess

from lib import demand, ending
from stress.attacked import LARGE


def filled(first, part, last, size=65_000):
    """A line of this number of bytes: the part as often as there is room for it."""
    return first + part * ((size - len(first) - len(last)) // len(part)) + last


def balanced(parts):
    half = len(parts) // 2
    return f"({balanced(parts[:half])}, {balanced(parts[half:])})" if half else parts[0]


def doubled(first, levels):
    """Bindings of q0 and of pairs of the one before, for a `let`."""
    return f"q0 = {first}; " + "".join(f"q{level + 1} = (q{level}, q{level}); " for level in range(levels))


def met(count):
    """A function's parameter of this number of names, and sequences in which their types meet one by one."""
    parts = [f"u{place}" for place in range(count)]
    return balanced(parts), ", ".join(f"#[{one}, {other}]" for one, other in zip(parts[1:], parts))


def hinted_lines():
    """For each name the lines that are said before, and the one that is refused."""
    tree, meeting = met(1_000)
    wide = [f"v{place}" for place in range(2_000)]
    divided = ["function fib(n) = if n < 2 then n else fib(n - 1) + fib(n - 2);",
               "function g0(x) = sum({fib(16) : i in index(30)}) / (x - x);",
               *(f"function g{level}(x) = g{level - 1}(x);" for level in range(1, 5))]
    return {
        "names that meet, beside a tree of them": ([], filled(
            f"function h({tree}) = let r = [{meeting}]; {doubled(tree, 5)} in ([", "#[q5], ", "1], 1 + T);")),
        "pairs of pairs": ([], filled(f"function h(x) = let {doubled('x', 20)} in [", "#[q20], ", "T];")),
        "calls without a type": (LARGE["pairs of equals"] + ["function z(x) = z(x);"], filled(
            "let y = d(1); w = [", "#[y], ", "1] in z(1);")),
        "one of many names": ([], filled(f"function h({balanced(wide)}) = 1 + [", "v0, ", "v0];")),
        "names of a type": ([], f"function h(x) : {balanced(wide)} -> {balanced(['v1999'] * 5_000)} = 1;"),
        "calls in calls": (divided, "[g4(1)];"),
    }


def processor_seconds():
    """What the processes that have ended took."""
    used = resource.getrusage(resource.RUSAGE_CHILDREN)
    return used.ru_utime + used.ru_stime


def hints_beside_none(program, most=3):
    """Each of these lines takes at most this number of processor seconds more with hints, and has one; figures."""
    worst = 0
    for name, (before, line) in hinted_lines().items():
        text = "".join(f"{said}\n" for said in ["user ann", *before, line]).encode()
        took, answers = [], []
        for words in ([], ["--hints"]):
            begun = processor_seconds()
            ran = subprocess.run([program, "batch", *words, "ann"], input=text, stdout=subprocess.PIPE, check=False)
            took.append(processor_seconds() - begun)
            demand(ran.returncode == 0, f"{name}: {ending(ran.returncode)}")
            answers.append(ran.stdout.decode("latin-1").split("\n")[:-1])
        without, (*others, hint) = answers
        demand(others == without and hint.startswith("hint: at "), f"{name}: {others[-1:]} and {hint[:200]}")
        demand(took[1] - took[0] < most, f"{name}: {took[1]:.1f} s with hints, {took[0]:.1f} s without")
        worst = max(worst, took[1] - took[0])
    return f"{worst:.2f} processor seconds more at most"
