"""Shapes of lines that are hard to read or to type. `stress/worst_lines` and `bench/typing` make lines of them.

A shape is a function of the bytes that its line may have and of genes: numbers between two bounds, or words of a few.
It answers the lines that have to be said before, and the line, which fills its bytes. Names of functions and datatypes
begin with `z`, and no local name does.
"""
import itertools
import random
import string

MOST_NODES = 4095
HEIGHT = 90
SHAPES = {}
RESERVED = {"in", "if", "or", "let", "int", "and", "nor", "xor", "it", "char", "bool", "else", "then", "nand", "true"}
LETTERS = [letter for letter in string.ascii_lowercase if letter not in "tfz"]


def shape(**genes):
    """Adds a shape with the bounds of its genes."""
    def add(function):
        SHAPES[function.__name__] = (function, genes)
        return function
    return add


def made(name, size, genes):
    """The lines before, and the line, of a shape."""
    return SHAPES[name][0](size, **genes)


# Parts of lines.

def local_names(count):
    """The shortest names, none of which is a function's, a datatype's or reserved."""
    rest = string.ascii_lowercase + string.digits
    longer = (first + "".join(tail) for length in itertools.count(1) for first in LETTERS
              for tail in itertools.product(rest, repeat=length))
    every = itertools.chain(LETTERS, (name for name in longer if name not in RESERVED))
    return list(itertools.islice(every, count))


def tree(parts):
    """The parts as pairs of pairs, of the least height."""
    if len(parts) == 1:
        return parts[0]
    half = len(parts) // 2
    return f"({tree(parts[:half])},{tree(parts[half:])})"


def spine(parts, right):
    """The parts as pairs, each with the rest on its right or left; what would be too high is a tree at the end."""
    ends, inner = parts[:HEIGHT], parts[HEIGHT:]
    text = tree(inner) if inner else ends.pop()
    for part in reversed(ends):
        text = f"({part},{text})" if right else f"({text},{part})"
    return text


ARRANGED = {"tree": tree, "right": lambda parts: spine(parts, True), "left": lambda parts: spine(parts, False)}


def parameter(text):
    return text if text.startswith("(") else f"({text})"


def filled(size, first, parts, last, between=","):
    """As many of the parts, again from the first, as there is room for."""
    room, chosen = size - len(first) - len(last) + len(between), []
    for part in itertools.cycle(parts):
        room -= len(part) + len(between)
        if room < 0:
            break
        chosen.append(part)
    return first + between.join(chosen or parts[:1]) + last


STEPS = {"sequence": "[x]", "pair": "(1,x)", "left": "(x,1)", "twice": "(x,x)", "datatype": "[zt(x)]",
         "both": "([x],[x])", "list": "[(x,[1])]"}
NODES = {"sequence": 1, "pair": 2, "left": 2, "list": 4}


def powers(kind, depth, name="zd"):
    """Functions of which the last, of that name, puts its argument this number of levels deep."""
    lines = [f"function {name}w0(x) = {STEPS[kind]};"]
    calls, left, level = [], depth, 0
    while left:
        digit, left = left % 3, left // 3
        calls += [f"{name}w{level}("] * digit
        if left:
            below = f"{name}w{level}("
            lines.append(f"function {name}w{level + 1}(x) = {below * 3}x)));")
        level += 1
    return [*lines, f"function {name}(x) = {''.join(calls)}x{')' * len(calls)};"]


def scheme(kind, nodes, names=2):
    """Functions of which `zd` gives a type of about that many nodes: of one variable, or of as many as there are names,
    in which case its parameter has all of them."""
    if kind in NODES:
        return powers(kind, max(1, min(nodes, MOST_NODES - 4) // NODES[kind]))
    if kind in ("twice", "both"):
        return powers(kind, min(11 if kind == "twice" else 9, max(1, nodes.bit_length() - 1)))
    count = min(names, nodes, 2000)
    variables = local_names(count)
    result = {"ignored": "1", "same": tree(variables), "turned": tree(variables[::-1]),
              "rows": tree([f"[{one}]" for one in variables[:1000]])}[kind]
    return [f"function zd{parameter(tree(variables))} = {result};"]


SCHEMES = ("sequence", "pair", "left", "list", "twice", "both", "ignored", "same", "turned", "rows")
WRAPS = {"count": "#[{}]", "bare": "{}", "row": "[{}]", "equal": "eql({},{})", "each": "{{o:o in [{}]}}", "choice":
         "(if zb(0) then {} else {})", "paired": "({},1)", "let": "(let o={} in 1)", "sum": "#[{},{}]",
         "compare": "#{}"}
BEFORE = ["function zb(x) = x==0;"]


# Instances.

@shape(kind=SCHEMES, nodes=(1, MOST_NODES), names=(1, 6000), calls=(1, 20_000), wrap=tuple(WRAPS),
       pattern=("tree", "right", "let", "each", "global"), step=(1, 50), arity=(1, 2000))
def instances(size, kind, nodes, names, calls, wrap, pattern, step, arity):
    """Calls of a function with a large type, each with a name that has a type of its own."""
    variables = local_names(names)
    calls = (f"zd({variables[place * step % names]})" for place in range(min(calls, size)))
    inner = list(dict.fromkeys(WRAPS[wrap].format(*[call] * 2) for call in calls))
    return BEFORE + scheme(kind, nodes, arity), bound(size, variables, pattern, inner)


def bound(size, variables, pattern, inner):
    """A function whose local names these are, over a list of such parts as there is room for."""
    if pattern in ARRANGED:
        return filled(size, f"function hh{parameter(ARRANGED[pattern](variables))} = [", inner, "];")
    if pattern == "let":
        return filled(size, f"function hh(z)=let {tree(variables)}=z in [", inner, "];")
    if pattern == "each":
        return filled(size, "function hh(z)={[", inner, f"]:{tree(variables)} in z}};")
    if pattern == "binders":
        binders = "; ".join(f"{one} in z" for one in variables)
        return filled(size, "function hh(z)={[", inner, f"]:{binders}}};")
    if pattern == "bindings":
        bindings = ";".join(f"{one}=z" for one in variables)
        return filled(size, f"function hh(z)=let {bindings} in [", inner, "];")
    if pattern == "lets":
        share = max(1, -(-len(variables) // 80))
        lets = "".join(f"let {tree(variables[at:at + share])}=z in " for at in range(0, len(variables), share))
        return filled(size, f"function hh(z)={lets}[", inner, "];")
    return filled(size, ":type [", inner, "];")


def marked(number, inner):
    """The part with brackets and pairs round it that are those of no other number below 4,096."""
    for bit in range(12):
        inner = f"[{inner}]" if number >> bit & 1 else f"({inner},1)"
    return inner


@shape(kind=("sequence", "pair", "left", "list"), nodes=(1, MOST_NODES - 40), functions=(1, 2500), wrap=tuple(WRAPS),
       ends=("closed", "open", "same"), argument=("1", "x", "[x]"))
def callees(size, kind, nodes, functions, wrap, ends, argument):
    """Calls of many functions, each of a large type of its own: with a variable at its end, or without."""
    before = BEFORE + scheme(kind, nodes)
    bodies = {"closed": "let x=1 in zd({})", "open": "zd({})", "same": "zd(x)"}
    before += [f"function z{place}(x) = {bodies[ends].format(marked(place, 'x'))};" for place in range(functions)]
    inner = [WRAPS[wrap].format(*[f"z{place}({argument})"] * 2) for place in range(functions)]
    return before, filled(size, "function hh(x) = [", inner, "];")


@shape(arity=(2, 2000), names=(1, 2000), share=("many", "pair", "chain"), gives=("ignored", "same", "turned", "rows"),
       classes=("any", "number"), wrap=("#[{0}]", "#[{0},{1}]", "#[{0},z]", "eql({0},{1})"))
def many_variables(size, arity, names, share, gives, classes, wrap):
    """Calls of a function of many variables, with names whose types have to become trees of them."""
    variables, called = local_names(names), local_names(arity)
    others = variables[1:] + variables[:1]
    if share == "pair":
        inner = [wrap.format(f"zd(({one},{one}))", f"zd(({one},{other}))") for one, other in zip(variables, others)]
    elif share == "chain":
        inner = [wrap.format(f"zd({one})", other) for one, other in zip(variables, others)]
    else:
        inner = [wrap.format(f"zd({one})", f"zd({other})") for one, other in zip(variables, others)]
    before = scheme(gives, MOST_NODES, arity)
    if classes == "number":
        before = [f"function zd{parameter(tree(called))} = {tree(['-' + one for one in called])};"]
    return before, bound(size, ["z", *variables], "tree", inner)


@shape(variables=(1, 300), nodes=(1, MOST_NODES), kind=("sequence", "pair", "left", "twice", "both", "list"),
       part=("#[{0}]", "{0}", "[{0},{1}]", "#[zd({0})]", "({0},{1})", "eql({0},{1})"))
def known_names(size, variables, nodes, kind, part):
    """Uses of variables of the session that have large types."""
    before = scheme(kind, nodes) + [f"zv{place} = zd({marked(place, '1')});" for place in range(variables)]
    names = [f"zv{place}" for place in range(variables)]
    return before, filled(size, ":type [", [part.format(*two) for two in zip(names, names[1:] + names[:1])], "];")


@shape(kind=SCHEMES, nodes=(1, MOST_NODES), arity=(1, 2000), place=("first", "last", "all"), what=("name", "function",
       "sum"), wrap=tuple(WRAPS))
def refused(size, kind, nodes, arity, place, what, wrap):
    """A line that is refused for a name or a sum, with calls of a function of a large type."""
    wrong = {"name": "nobody", "function": "nothing(1)", "sum": "(1+[1])"}[what]
    call = WRAPS[wrap].format(*["zd(x)"] * 2)
    fault = WRAPS[wrap].format(*[wrong] * 2)
    if place == "all":
        return BEFORE + scheme(kind, nodes, arity), filled(size, "function hh(x)=[", [call, fault], "];")
    first, last = ([fault], []) if place == "first" else ([], [fault])
    first, last = "".join(f"{one}," for one in first), "".join(f",{one}" for one in last)
    return BEFORE + scheme(kind, nodes, arity), filled(size, f"function hh(x)=[{first}", [call], f"{last}];")


# Local names.

@shape(names=(1, 12_000), pattern=("tree", "right", "left", "let", "each", "binders", "bindings", "lets"),
       used=("first", "last", "middle", "all", "global", "unknown"), part=("{}", "#{}", "({},{})", "zi({})", "[{}]",
       "{}+{}", "-{}"))
def uses(size, names, pattern, used, part):
    """Many uses of local names, or of one that isn't local, below many others."""
    variables = local_names(names)
    chosen = {"first": variables[:1], "last": variables[-1:], "middle": [variables[names // 2]], "all": variables,
              "global": ["zg"], "unknown": ["nobody"]}[used]
    inner = [part.format(*[one] * 2) for one in chosen]
    if pattern == "left":
        pattern = "right"
    return ["zg = 1;", "function zi(x) = x;"], bound(size, variables, pattern, inner)


@shape(names=(2, 9000), levels=(1, 90), side=("right", "left"), used=("low", "high"))
def deep_pattern(size, names, levels, side, used):
    """Uses of a name deep in a pattern, beside a tree of others."""
    variables = local_names(names)
    levels = min(levels, names - 1)
    low = tree(variables[levels:])
    text = low
    for one in variables[:levels]:
        text = f"({one},{text})" if side == "right" else f"({text},{one})"
    name = variables[-1 if side == "left" else levels] if used == "low" else variables[0]
    return [], filled(size, f"function hh{parameter(text)} = [", [name], "];")


@shape(length=(1, 20_000), names=(1, 3000), prefix=("front", "back"))
def long_names(size, length, names, prefix):
    """Local names that are long and differ late, or early."""
    length = min(length, max(1, size // 3 // names - 5))
    stem = "y" * length
    variables = [stem + one if prefix == "front" else one + stem for one in local_names(names)]
    return [], filled(size, f"function hh{parameter(tree(variables))} = [", variables[:1], "];")


# Equations.

@shape(names=(2, 9000), order=("up", "down", "halves", "random", "star", "tooth"),
       part=("[{},{}]", "eql({},{})", "if zb(0) then {} else {}", "{}=={}", "{}+{}", "[[{}],[{}]]", "[({},1),({},1)]",
             "{}++{}"),
       after=("nothing", "sequences", "pairs", "doubled", "occurs"), deep=(0, MOST_NODES))
def equations(size, names, order, part, after, deep):
    """Names whose types are made equal in an order, and are then found to be something."""
    variables, chance = local_names(names), random.Random(names)
    pairs = list(zip(variables, variables[1:]))
    if order == "down":
        pairs.reverse()
    elif order == "halves":
        pairs = [pair for gap in (2**bit for bit in range(names.bit_length())) for pair in
                 zip(variables[::gap], variables[gap // 2::gap])]
    elif order == "random":
        pairs = [(one, chance.choice(variables)) for one in variables]
    elif order == "star":
        pairs = [(variables[0], one) for one in variables]
    elif order == "tooth":
        pairs = list(zip(variables, reversed(variables)))
    inner = [f"#[{part.format(*pair)}]" for pair in pairs]
    before = list(BEFORE)
    if after == "sequences":
        inner += [f"#[zd({one})]" for one in variables]
        before += powers("sequence", max(1, deep))
    elif after == "pairs":
        inner += [f"#[({one},{one})]" for one in variables]
    elif after == "doubled":
        inner += [f"#[{other},[{one}]]" for one, other in zip(variables, variables[3:])]
    elif after == "occurs":
        inner += [f"#[{variables[-1]},[{variables[0]}]]"]
    return before, filled(size, f"function hh{parameter(tree(variables))} = [", inner, "];")


@shape(names=(1, 3000), deep=(1, MOST_NODES), kind=("sequence", "pair", "left", "twice", "both"),
       part=("[zd({}),zd({})]", "eql(zd({}),zd({}))", "[zd({}),zd({}),zd({})]"))
def deep_equations(size, names, deep, kind, part):
    """Large types that are made equal, each with variables of its own."""
    variables = local_names(names)
    rows = (variables, variables[1:] + variables[:1], variables[2:] + variables[:2])
    inner = [f"#[{part.format(*row)}]" for row in zip(*rows)]
    return scheme(kind, deep), filled(size, f"function hh{parameter(tree(variables))} = [", inner, "];")


@shape(names=(2, 3000), link=("[{0}]", "({0},{0})", "({0},1)", "[[{0}]]", "zd({0})"), deep=(1, 500),
       order=("up", "down"))
def towers(size, names, link, deep, order):
    """Names of which each has a type that is made of the one before."""
    variables = local_names(names)
    inner = [f"#[{other},{link.format(one)}]" for one, other in zip(variables, variables[1:])]
    if order == "down":
        inner.reverse()
    return powers("sequence", deep), filled(size, f"function hh{parameter(tree(variables))} = [", inner, "];")


@shape(names=(1, 9000), part=("{}+{}", "max({},{})", "{} and {}", "-{}*{}", "not({})", "{}<{}", "zc({})", "zo({},{})"),
       together=("no", "chain", "all"), deep=(1, MOST_NODES))
def classes(size, names, part, together, deep):
    """Names with classes, which meet."""
    variables = local_names(names)
    others = variables if together == "no" else variables[1:] + variables[:1] if together == "chain" else \
        variables[:1] * names
    inner = [f"#[{part.format(*pair)}]" for pair in zip(variables, others)]
    count = min(deep, 1500)
    called = local_names(count)
    before = [f"function zc{parameter(tree(called))} = {tree([f'-{one}' for one in called])};",
              "function zo(a,b) = max(a+b,abs(a));"]
    return before, filled(size, f"function hh{parameter(tree(variables))} = [", inner, "];")


# `let`, apply-to-each.

@shape(bindings=(1, 8000), value=("{0}", "({0},{0})", "[{0}]", "{0}+1", "zd({0})", "{{y:y in [{0}]}}", "(1,{0})"),
       deep=(1, MOST_NODES), body=("last", "first", "all"))
def chains(size, bindings, value, deep, body):
    """A `let` of many bindings, each over the one before."""
    variables = local_names(bindings + 1)
    room, parts = size * 9 // 10, []
    for one, other in zip(variables, variables[1:]):
        parts.append(f"{other}={value.format(one)}")
        room -= len(parts[-1]) + 1
        if room < 0:
            break
    used = variables[:len(parts)]
    inner = {"last": used[-1:], "first": used[:1], "all": used}[body]
    first = f"function hh({variables[0]})=let {';'.join(parts)} in ["
    return powers("sequence", deep), filled(size, first, [f"#[{one}]" for one in inner], "];")


@shape(levels=(1, 90), binders=(1, 300), kind=("each", "filtered", "bare", "let", "choice"), width=(1, 500))
def nests(size, levels, binders, kind, width):
    """Apply-to-eachs or `let`s in each other, each of many names."""
    names = local_names(levels * binders)
    text = "[" + ",".join([names[0]] * width) + "]"
    for level in range(levels):
        own = names[level * binders:(level + 1) * binders]
        if len(text) + 8 * binders > size:
            break
        drawn = ";".join(f"{one} in z" for one in own)
        text = {"each": f"{{{text}:{drawn}}}", "filtered": f"{{{text}:{drawn}|{own[0]}==1}}", "bare":
                f"{{{drawn}|#{text}==1}}", "let": f"let {';'.join(f'{one}=z' for one in own)} in {text}",
                "choice": f"(if z==[1] then {text} else z)"}[kind]
    return [], f"function hh(z)={text};"


# Signatures, datatypes, written types.

@shape(names=(1, 5000), given=("none", "first", "all"), same=("yes", "no"))
def signatures(size, names, given, same):
    """A signature with many variables, and classes of them."""
    names = max(1, min(names, size // (24 if given == "all" else 12)))
    variables = local_names(names)
    written = ["a"] * names if same == "yes" else variables
    classes = {"none": [], "first": [f"{written[0]} in number"], "all": [f"{one} in any" for one in written]}[given]
    tail = f" :: ({';'.join(classes)})" if classes else ""
    text = tree(written)
    return [], f"function hh{parameter(tree(variables))} : {text} -> int{tail} = 1;"


@shape(nodes=(1, MOST_NODES), parts=(1, 9000), kind=("empty", "record", "unknown"), names=(1, 2000))
def written_types(size, nodes, parts, kind, names):
    """Types that are written, of many nodes, again and again; or calls of datatypes with large types."""
    before = [f"datatype z{place} int;" for place in range(names)]
    leaves = [f"z{place}" for place in range(names)]
    count = max(1, min(nodes // 2, size // 8))
    text = tree([leaves[place % names] for place in range(count)])
    if kind == "empty":
        return before, filled(size, "function hh(x)=[", [f"#[] {text}"] * parts, "];")
    if kind == "unknown":
        return before, filled(size, "function hh(x)=[", [f"#[] {text}", "#[] zunknown"] * parts, "];")
    before.append(f"datatype zrecord {text};")
    return before, filled(size, "function hh(x)=[", ["#[zrecord(x)]"] * parts, "];")


@shape(length=(1, 60_000), leaves=(1, 2000), form=("function", "type", "row"))
def long_replies(size, length, leaves, form):
    """A type of many nodes whose datatypes have long names."""
    before = [f"datatype z{'y' * min(length, size - 30)} int;"]
    name = before[0].split()[1]
    before += [f"function zone(x) = {name}(1);"]
    count = min(leaves, 2000)
    calls = tree(["x"] * count)
    before += [f"function zall(x) = let x = zone(1) in {calls};"]
    forms = {"function": "function hh(x) = zall(x);", "type": ":type zall(1);", "row": ":type [zall(1)];"}
    return before, forms[form]


# Sessions.

@shape(functions=(1, 9000), form=("retype", "same", "new", "names", "budget", "reset", "datatype", "variable",
                                  "unknown", "value"),
       body=("x", "zg(x)", "zd(x)", "zh(x)+x"), nodes=(1, MOST_NODES))
def sessions(size, functions, form, body, nodes):
    """A small line beside thousands of functions."""
    before = ["function zg(x) = x;", "function zh(x) = x+1;", *powers("sequence", nodes)]
    before += [f"function z{place}(x) = {body};" for place in range(functions)]
    line = {"retype": "function zh(x) = [x];", "same": "function zh(x) = 1+x;", "new": "function hh(x) = x;",
            "names": ":names", "budget": ":budget", "reset": ":reset", "datatype": "datatype hh int;",
            "variable": "hh = 1;", "unknown": "nobody;", "value": "1;"}[form]
    return before, line


@shape(functions=(1, 9000), kind=("sequence", "pair", "twice"), nodes=(1, MOST_NODES))
def redefined(size, functions, kind, nodes):
    """A function that is made another of as large a type, beside thousands of others that call it."""
    before = scheme(kind, nodes)
    before += ["function zz(x) = zd(x);"] + [f"function z{place}(x) = zz(x);" for place in range(functions)]
    return before, "function zz(x) = zd([x]);"


# Reading.

READ = {"parentheses": ("(", ")"), "brackets": ("[", "]"), "minus": ("-", ""), "counts": ("#", ""),
        "blanks": (" ", ""), "tabs": ("\t", ""), "plus": ("1+", ""), "braces": ("{", "}"), "braced": ("{{", ""),
        "ifs": ("if ", ""), "lets": ("let ", ""), "letters": ("y", ""), "digits": ("0", ""), "nines": ("9", ""),
        "comments": ("%%", ""), "characters": ("`a", ""), "texts": ('"a"', ""), "colons": (":", ""), "at": ("@", ""),
        "semicolons": (";", ""), "commas": ("1,", ""), "names": ("a ", ""), "calls": ("zi(", ")"),
        "indexes": ("a[", "]"), "else": ("else ", ""), "equals": ("a=", ""), "in": ("a in ", ""), "long": ("1,", "1"),
        "functions": ("function a(a)=", ""), "types": ("int,", ""), "quotes": ('"', ""), "percent": ("%", "")}


@shape(kind=tuple(READ), levels=(1, 65_000), front=("", "[", "function hh(x)=", ":type ", "datatype z", "x=", "("),
       end=(";", "", "]);"))
def readings(size, kind, levels, front, end):
    """One token or two again and again, closed or not."""
    opened, closed = READ[kind]
    levels = max(1, min(levels, (size - len(front) - 3) // (len(opened) + len(closed))))
    return ["function zi(x) = x;"], f"{front}{opened * levels}1{closed * levels}{end}"[:size]


@shape(height=(1, 95), kind=("(", "[", "-", "#", "zi(", "let a=1 in ", "{1:a in ", "if 1==1 then 1 else "),
       leaf=("a", "1", "(1,2)", "[a]"))
def high_parts(size, height, kind, leaf):
    """Parts that are as high as they may be, again and again."""
    close = {"(": ")", "[": "]", "zi(": ")", "{1:a in ": "}"}.get(kind, "")
    part = f"#[{kind * height}{leaf}{close * height}]"
    return ["function zi(x) = x;"], filled(size, "function hh(a)=[", [part], "];")


@shape(parts=(1, 9000), text=("1+", "", "(", "1,", "%", '"a"++'), front=("x = ", "[", "function hh(x)=", ":type "))
def pieces(size, parts, text, front):
    """A form in many lines, each with a backslash at its end."""
    count = max(1, min(parts, size // (len(text) + 1) - 9))
    return [f"{front}\\", *[f"{text}\\"] * count], "1;"


# The worst lines that were found, with their genes, by what they are. Each has 65,536 bytes.

LONGEST = 65_536
WORST = {
    "a name that is unknown": ("instances", dict(kind="sequence", nodes=4095, names=1, calls=1, wrap="count",
                                                 pattern="global", step=1, arity=1)),
    "large types of 5,000 names": ("instances", dict(kind="sequence", nodes=4095, names=5000, calls=5000, wrap="count",
                                                     pattern="tree", step=1, arity=1)),
    "large pairs of 1,900 names": ("instances", dict(kind="pair", nodes=4091, names=1900, calls=1900, wrap="count",
                                                     pattern="tree", step=1, arity=1)),
    "two variables of large types": ("known_names", dict(variables=2, nodes=4000, kind="sequence", part="#[{0}]")),
    "a variable again and again": ("known_names", dict(variables=1, nodes=4000, kind="sequence", part="{0}")),
    "a name deep in a pattern": ("deep_pattern", dict(names=1312, levels=49, side="right", used="high")),
    "a name of the first of 80 lets": ("uses", dict(names=3000, pattern="lets", used="first", part="{}")),
    "names that become trees": ("many_variables", dict(arity=1476, names=1345, share="many", gives="ignored",
                                                       classes="any", wrap="#[{0},z]")),
    "trees turned round": ("many_variables", dict(arity=1990, names=2, share="many", gives="turned", classes="any",
                                                  wrap="#[{0},{1}]")),
    "functions of closed types": ("callees", dict(kind="sequence", nodes=4050, functions=2000, wrap="count",
                                                  ends="closed", argument="1")),
    "large types that are equal": ("deep_equations", dict(names=831, deep=4068, kind="sequence",
                                                          part="eql(zd({}),zd({}))")),
    "numbers that meet": ("classes", dict(names=690, part="zc({})", together="chain", deep=581)),
}
