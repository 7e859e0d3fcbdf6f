"""Lines that are hard to type, as scripts/test tries them: long ones as people write them, and some beyond the bounds of
typing.

Typing is charged no work, so it has bounds of its own, which docs/DECISIONS.md has under Types. A line beyond them is
answered `fault memory`, and no line that a person writes may come near.
"""
import subprocess

from lib import ONE, demand, ending, short
from stress.shapes import filled, local_names, powers, tree

TYPED = {}
SIZE, SECONDS = 60_000, 60
REFUSED = "fault memory (work 0)"


def check(name):
    def add(function):
        TYPED[name] = function
        return function
    return add


def answers(program, lines):
    """What a batch answers to these lines, which it has to end well."""
    text = "".join(line + "\n" for line in ["user ann", *lines]).encode()
    ran = subprocess.run([program, "batch", "ann"], input=text, stdout=subprocess.PIPE, stderr=subprocess.PIPE,
                         timeout=SECONDS, check=False)
    demand(ran.returncode == 0 and not ran.stderr, f"{ending(ran.returncode)} {short(ran.stderr)}")
    return ran.stdout.decode("latin-1").split("\n")[1:-1]


def answer(program, title, before, line):
    """The answer to a line, after others none of which is a fault."""
    *earlier, last = answers(program, [*before, line])
    wrong = [reply for reply in earlier if reply.startswith("fault")]
    demand(not wrong, f"{title}: a line before is answered {short(wrong[0]) if wrong else ''}")
    return last


# Lines as people write them. Each function gives what is said before, a line, and how its answer starts.

def function_of_hundreds_of_names():
    shapes = ["{a} + {b} * {c} - 17", "if {a} > {b} then {c} - 1 else max({a}, {b})",
              "sum({{item * {a} : item in index({b}); other in rest({c}) | item /= other}})",
              "#({{w + {a} : w in [{b}, {c}]}} ++ [1, 2, {a}])", "step({a}, (step({b}, ({c}, 3)), 2))"]
    names, bindings, size = ["base", "rate", "width"], [], 0
    while size < SIZE:
        place = len(names)
        one, other, third = names[place // 4], names[place // 2], names[-1]
        name = f"{('total', 'count', 'level', 'price')[place % 4]}_{place}"
        bindings.append(f"{name} = {shapes[place % 5].format(a=one, b=other, c=third)}")
        names.append(name)
        size += len(bindings[-1]) + 2
    before = ["function step(a, (b, c)) = a * b + c;", "function rest(n) = {n - i : i in index(n)};"]
    line = f"function settle(base, rate, width) = let {'; '.join(bindings)} in [{', '.join(names[-90:])}];"
    return before, line, "settle : (int, int, int) -> [int]"


def two_hundred_parameters():
    names = [f"field_{place}" for place in range(200)]
    parts = ", ".join(f"({', '.join(names[at:at + 40])})" for at in range(0, 200, 40))
    uses = [f"{one} * {other}" for one in names[:20] for other in names]
    return [], filled(SIZE, f"function weigh({parts}) = sum([1, ", uses, "]);", ", "), "weigh : ((int, int, "


def patterns_of_ninety_levels():
    names = [f"part_{place}" for place in range(90)]
    right, left = names[-1], names[-1]
    for name in names[-2::-1]:
        right, left = f"({name}, {right})", f"({left}, {name})"
    uses = [f"let {left} = ({left}) in {name}" for name in names[:30]]
    return [], filled(SIZE, f"function unpack {right} = [", uses, "];", ", "), "unpack : (a, "


def tower_of_lets():
    levels = "".join(f"let low_{level} = {'low_' + str(level - 1) if level else 'x'} + {level}; "
                     f"high_{level} = {{a + low_{level} : a in [low_{level}, {level}]}}; in " for level in range(95))
    return [], f"function tower(x) = {levels}sum(high_94) + low_94;", "tower : int -> int"


def record_of_many_fields():
    names = [f"field_{place}" for place in range(160)]
    kinds = ["int", "[char]", "(int, bool)", "[(int, [char])]"]
    types = ", ".join(f"({', '.join(kinds[(at + place) % 4] for place in range(40))})" for at in range(4))
    pattern = ", ".join(f"({', '.join(names[at:at + 40])})" for at in range(0, 160, 40))
    fields = ", ".join(f"({', '.join('row + 1' if name == names[0] else name for name in names[at:at + 40])})"
                       for at in range(0, 160, 40))
    before = [f"datatype record ({types});",
              f"function moved(record({pattern}), row) = record({fields});"]
    uses = ["moved(item, 1)", "moved(moved(item, 2), #table)", "{moved(other, 3) : other in table}[0]"]
    return before, filled(SIZE, "function all_moved(table) = {[", uses, "] : item in table};", ", "), \
        "all_moved : [record] -> [[record]]"


def chain_of_calls():
    before = ["function call_0(x, y) = (y, x);"]
    before += [f"function call_{place}(x, y) = call_{place - 1}(y, x);" for place in range(1, 1000)]
    uses = [f"#[call_{place}(a, call_{999 - place}(b, a))]" for place in range(1000)]
    return before, filled(SIZE, "function chained(a, b) = [", uses, "];", ", "), "chained : (a, b) -> [int]"


def long_table():
    rows = [f'("product {place}", {place * 37}, [{place}, {place + 1}], T, (`a, [] int))' for place in range(2000)]
    line = filled(SIZE, "#[", rows, "];", ", ")
    return [], line, "it = "


def generic_functions():
    before = ["function pair(a, b) = (a, b);", "function first(a, b) = a;", "function other(a, b) = b;",
              "function twice(a) = [a, a];", "function joined(a, b) = {(x, y) : x in a; y in b};"]
    parts = ['first(pair(x, "text")) + 1', "#joined(twice(x), twice((x, T)))", "other(pair(twice(x), x + 2))",
             "sum({first(p) + #other(p) : p in joined(twice(x), twice(\"ab\"))})"]
    return before, filled(SIZE, "function used(x) = [", parts, "];", ", "), "used : int -> [int]"


COMMON = [function_of_hundreds_of_names, two_hundred_parameters, patterns_of_ninety_levels, tower_of_lets,
          record_of_many_fields, chain_of_calls, long_table, generic_functions]


@check("common lines stay clear of the bounds of typing")
def common_lines(program):
    """Long lines as people write them are typed, whatever they are made of."""
    size = 0
    for make in COMMON:
        title = make.__name__.replace("_", " ")
        before, line, start = make()
        mine = answer(program, title, before, line)
        demand(mine.startswith(start), f"{title}, {len(line)} bytes: {short(line)} is answered {short(mine)}")
        size += len(line)
    return f"{len(COMMON)} lines, {size} bytes"


# Beyond the bounds.

def of_many_variables(calls):
    """Calls of a function that has 2,000 type variables, of which a line may need 1,048,576."""
    before = [f"function wide{tree(local_names(2000))} = 1;"]
    return before, f"function over(x) = [{','.join(['wide(x)'] * calls)}];"


def of_many_places(calls):
    """Pairs of types that are compared part by part: a line may need 2,097,152 places for their parts."""
    names = local_names(2 * calls)
    pairs = ",".join(f"#[zd({one}),doubled({other})]" for one, other in zip(names[::2], names[1::2]))
    return [*powers("sequence", 4000), "function doubled(x) = zd((x,x));"], f"function over{tree(names)} = [{pairs}];"


def of_many_steps(calls):
    """Types of 4,000 nodes whose sizes are found: a line may take 16,777,216 steps for them."""
    return powers("sequence", 4000), f"function over(x) = [{','.join(['#zd([x])'] * calls)}];"


# The most calls that are typed, or a few less, and a few too many.
BOUNDS = {"variables": (of_many_variables, 500, 530), "places": (of_many_places, 250, 275),
          "steps": (of_many_steps, 1500, 4200)}


@check("lines beyond the bounds of typing")
def lines_beyond(program):
    """Such a line is refused, binds nothing, and a shorter one of its kind is typed in the same session."""
    for title, (make, fits, over) in BOUNDS.items():
        before, line = make(over)
        *_, refused, one, unknown, shorter = answers(program, [*before, line, ONE[0], "over;", make(fits)[1]])
        demand(refused == REFUSED, f"{title}, {over} calls: {short(line)} is answered {short(refused)}")
        demand((one, unknown) == (ONE[1], "fault unknown at 0..4 (work 0)"), f"{title}: then {one} and {short(unknown)}")
        demand(shorter.startswith("over : "), f"{title}, {fits} calls are answered {short(shorter)}")
    return f"{len(BOUNDS)} bounds"
