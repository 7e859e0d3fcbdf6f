"""Generated lines, for the scripts that compare this program with another.

`Session` makes lines that have types, and keeps what they defined; a part of each is replaced by another at random, so
that some have none. `any_line` makes lines of any text: broken and whole forms, tokens at random, stray bytes and deep
nests.
"""
INT, BOOL, CHAR = "int", "bool", "char"


# Types are the words for scalars, the name of a datatype, ("seq", T), ("pair", T, U), and ("any", NAME, CLASS) for what
# a parameter of unknown type has.

def seq(ty):
    return ("seq", ty)


def pair(left, right):
    return ("pair", left, right)


def text_of(ty):
    if isinstance(ty, str):
        return ty
    if ty[0] == "seq":
        return "[" + text_of(ty[1]) + "]"
    if ty[0] == "pair":
        return "(" + text_of(ty[1]) + ", " + text_of(ty[2]) + ")"
    return ty[1]


def instance(ty, given):
    if isinstance(ty, str):
        return ty
    if ty[0] in ("seq", "pair"):
        return (ty[0], *[instance(part, given) for part in ty[1:]])
    return given.get(ty[1], ty)


A, B = ("any", "a", "any"), ("any", "b", "any")
MEMBERS = {"any": [INT, BOOL, CHAR, seq(INT), pair(INT, BOOL), seq(CHAR)], "ordinal": [INT, CHAR], "number": [INT],
           "logical": [INT, BOOL]}


def at(class_name):
    return ("any", "a", class_name)


# Calls: how one is written, the types of its parts, and its type.
CALLS = [
    ("not({})", [at("logical")], at("logical")),
    ("plusp({})", [INT], BOOL), ("minusp({})", [INT], BOOL), ("zerop({})", [INT], BOOL),
    ("oddp({})", [INT], BOOL), ("evenp({})", [INT], BOOL), ("negate({})", [INT], INT), ("abs({})", [INT], INT),
    ("isqrt({})", [INT], INT), ("btoi({})", [BOOL], INT), ("char_code({})", [CHAR], INT), ("code_char({})", [INT], CHAR),
    ("rem({}, {})", [INT, INT], INT), ("max({}, {})", [at("ordinal"), at("ordinal")], at("ordinal")),
    ("min({}, {})", [at("ordinal"), at("ordinal")], at("ordinal")), ("lshift({}, {})", [INT, INT], INT),
    ("rshift({}, {})", [INT, INT], INT), ("dist({}, {})", [A, INT], seq(A)), ("index({})", [INT], seq(INT)),
    ("sum({})", [seq(INT)], INT), ("max_val({})", [seq(at("ordinal"))], at("ordinal")),
    ("min_val({})", [seq(at("ordinal"))], at("ordinal")), ("any({})", [seq(BOOL)], BOOL), ("all({})", [seq(BOOL)], BOOL),
    ("count({})", [seq(BOOL)], INT), ("max_index({})", [seq(at("ordinal"))], INT),
    ("min_index({})", [seq(at("ordinal"))], INT), ("plus_scan({})", [seq(INT)], seq(INT)),
    ("or_scan({})", [seq(at("logical"))], seq(at("logical"))), ("and_scan({})", [seq(at("logical"))], seq(at("logical"))),
    ("flatten({})", [seq(seq(A))], seq(A)), ("partition({}, {})", [seq(A), seq(INT)], seq(seq(A))),
    ("split({}, {})", [seq(A), seq(BOOL)], seq(seq(A))), ("bottop({})", [seq(A)], seq(seq(A))),
    ("take({}, {})", [seq(A), INT], seq(A)), ("drop({}, {})", [seq(A), INT], seq(A)), ("reverse({})", [seq(A)], seq(A)),
    ("rotate({}, {})", [seq(A), INT], seq(A)), ("odd_elts({})", [seq(A)], seq(A)), ("even_elts({})", [seq(A)], seq(A)),
    ("interleave({}, {})", [seq(A), seq(A)], seq(A)), ("zip({}, {})", [seq(A), seq(B)], seq(pair(A, B))),
    ("unzip({})", [seq(pair(A, B))], pair(seq(A), seq(B))), ("permute({}, {})", [seq(A), seq(INT)], seq(A)),
    ("rep({}, {}, {})", [seq(A), A, INT], seq(A)), ("eql({}, {})", [A, A], BOOL),
    ("({} and {})", [at("logical")] * 2, at("logical")), ("({} or {})", [at("logical")] * 2, at("logical")),
    ("({} xor {})", [at("logical")] * 2, at("logical")), ("({} nand {})", [at("logical")] * 2, at("logical")),
    ("({} nor {})", [at("logical")] * 2, at("logical")), ("({} == {})", [at("ordinal")] * 2, BOOL),
    ("({} /= {})", [at("ordinal")] * 2, BOOL), ("({} < {})", [at("ordinal")] * 2, BOOL),
    ("({} > {})", [at("ordinal")] * 2, BOOL), ("({} <= {})", [at("ordinal")] * 2, BOOL),
    ("({} >= {})", [at("ordinal")] * 2, BOOL), ("({} + {})", [INT, INT], INT), ("({} - {})", [INT, INT], INT),
    ("({} * {})", [INT, INT], INT), ("({} / {})", [INT, INT], INT), ("(-{})", [INT], INT), ("(#{})", [seq(A)], INT),
    ("({} ++ {})", [seq(A), seq(A)], seq(A)), ("({} -> {})", [seq(A), seq(INT)], seq(A)),
    ("({} <- {})", [seq(A), seq(pair(INT, A))], seq(A)), ("({})[{}]", [seq(A), INT], A),
    ("[{} : {}]", [INT, INT], seq(INT)), ("[{} : {} : {}]", [INT, INT, INT], seq(INT)),
    ("({}, {})", [A, B], pair(A, B)), ("(if {} then {} else {})", [BOOL, A, A], A),
]
# Calls of scalars alone, and sequences of a number of places, with how many there are of each: around the ends of the
# blocks in which plain bodies are evaluated.
SCALARS = [row for row in CALLS
           if all(isinstance(ty, str) or ty[0] == "any" and ty[2] != "any" for ty in [*row[1], row[2]])]
PACKED = {INT: ["index({})", "reverse(index({}))", "[0 : {}]", "dist(5, {})", "{{a - 5 : a in index({})}}",
                "{{rem(a * 7919, 10007) : a in index({})}}", "{{lshift(1, rem(a, 63)) : a in index({})}}"],
          BOOL: ["{{oddp(a) : a in index({})}}", "dist(T, {})"],
          CHAR: ["{{code_char(rem(a, 256)) : a in index({})}}", "dist(`c, {})"]}
PLACES = [0, 1, 2, 7, 8, 9, 40, 1000, 1023, 1024, 1025, 2047, 2048, 2049, 3000]
LOCALS = ["x", "y", "z", "w", "it", "u1"]
UNKNOWN = ["nothing", "nobody", "q"]


class Session:
    """What is defined so far: names with types, functions with the types of their argument and result, datatypes."""

    def __init__(self, rng):
        self.rng = rng
        self.variables = {}
        self.functions = {}
        self.datatypes = {}
        self.count = 0
        self.inside = []

    def name(self, letter):
        rng = self.rng
        known = [*self.variables, *self.functions, *self.datatypes]
        if known and rng.random() < 0.15:
            return rng.choice(known)
        if rng.random() < 0.05:
            return rng.choice(LOCALS[:4])
        self.count += 1
        return f"{letter}{self.count}"

    def any_type(self, levels=2):
        rng = self.rng
        if levels == 0 or rng.random() < 0.5:
            return rng.choice([INT, INT, BOOL, CHAR, *self.datatypes])
        if rng.random() < 0.6:
            return seq(self.any_type(levels - 1))
        return pair(self.any_type(levels - 1), self.any_type(levels - 1))

    # Expressions of a type, in a scope: a list of local names with their types, the newest first.

    def leaf(self, ty, scope):
        rng = self.rng
        hidden, known = set(), []
        for name, found in scope:
            if name not in hidden and found == ty:
                known.append(name)
            hidden.add(name)
        known += [name for name, found in self.variables.items() if found == ty and name not in hidden]
        if known and rng.random() < 0.8:
            return rng.choice(known)
        if isinstance(ty, tuple) and ty[0] == "seq":
            if ty[1] == CHAR and rng.random() < 0.5:
                return '"ab"'
            if ty[1][0] != "any" and rng.random() < 0.4:
                return "([] " + text_of(ty[1]) + ")"
            return "[" + self.leaf(ty[1], scope) + "]"
        if isinstance(ty, tuple) and ty[0] == "pair":
            return "(" + self.leaf(ty[1], scope) + ", " + self.leaf(ty[2], scope) + ")"
        if isinstance(ty, tuple):
            return rng.choice(known) if known else rng.choice(UNKNOWN)
        if ty in self.datatypes and ty not in self.inside:
            # A datatype may hold another that was defined again by way of it.
            self.inside.append(ty)
            text = f"{ty}({self.leaf(self.datatypes[ty], scope)})"
            self.inside.pop()
            return text
        return {INT: rng.choice(["0", "1", "7"]), BOOL: rng.choice(["T", "F"]), CHAR: "`c"}.get(ty, "nobody")

    def matched(self, ty, wanted, given):
        """Whether a call of the type gives what is wanted; `given` is filled with what its variables are."""
        if isinstance(ty, tuple) and ty[0] == "any":
            if ty[1] not in given and (ty[2] == "any" or wanted in MEMBERS[ty[2]]):
                given[ty[1]] = wanted
            return given.get(ty[1]) == wanted
        if isinstance(ty, str) or isinstance(wanted, str) or ty[0] != wanted[0]:
            return ty == wanted
        return all(self.matched(one, other, given) for one, other in zip(ty[1:], wanted[1:]))

    def fill(self, ty, given):
        """Chooses what the type's variables are that nothing has chosen yet."""
        if isinstance(ty, tuple) and ty[0] == "any":
            if ty[1] not in given:
                given[ty[1]] = self.any_type(1) if ty[2] == "any" else self.rng.choice(MEMBERS[ty[2]])
        elif isinstance(ty, tuple):
            for part in ty[1:]:
                self.fill(part, given)

    def call(self, ty, scope, depth):
        rng = self.rng
        choices = []
        own = [(name + "({})", [takes], gives) for name, (takes, gives) in self.functions.items()]
        for form, takes, gives in rng.sample(CALLS, 12) + own:
            given = {}
            if self.matched(gives, ty, given):
                choices.append((form, takes, given))
        if not choices:
            return self.leaf(ty, scope)
        form, takes, given = rng.choice(choices)
        for one in takes:
            self.fill(one, given)
        return form.format(*[self.expression(instance(one, given), scope, depth - 1) for one in takes])

    def pattern(self, ty, levels=2):
        """A pattern for a type, with the names that it binds, the last first."""
        rng = self.rng
        if isinstance(ty, tuple) and ty[0] == "pair" and levels and rng.random() < 0.8:
            left, names = self.pattern(ty[1], levels - 1)
            right, others = self.pattern(ty[2], levels - 1)
            return f"({left}, {right})", others + names
        if isinstance(ty, str) and ty in self.datatypes and levels and rng.random() < 0.7:
            inner, names = self.pattern(self.datatypes[ty], levels - 1)
            return f"{self.mistaken(ty, UNKNOWN + list(self.functions), 0.02)}({inner})", names
        if rng.random() < 0.02:
            inner, names = self.pattern(ty, 0)
            return rng.choice([f"{rng.choice(UNKNOWN)}({inner})", f"({inner}, y)"]), names
        name = rng.choice(LOCALS)
        return name, [(name, ty)]

    def let(self, ty, scope, depth):
        bindings = []
        for _ in range(self.rng.choice([1, 1, 2])):
            held = self.any_type()
            pattern, names = self.pattern(held)
            bindings.append(f"{pattern} = {self.expression(held, scope, depth - 1)}")
            scope = names + scope
        return f"(let {'; '.join(bindings)} in {self.expression(ty, scope, depth - 1)})"

    def each(self, ty, scope, depth):
        rng = self.rng
        binders, inner, first = [], scope, None
        bodiless = rng.random() < 0.3
        for _ in range(rng.choice([1, 1, 2])):
            item = ty[1] if bodiless and first is None else self.any_type(1)
            first = first or item
            pattern, names = self.pattern(item)
            binders.append(f"{pattern} in {self.expression(seq(item), scope, depth - 1)}")
            inner = names + inner
        body = "" if bodiless else self.expression(ty[1], inner, depth - 1) + " : "
        filtered = f" | {self.expression(BOOL, inner, depth - 1)}" if rng.random() < 0.4 else ""
        return "{" + body + "; ".join(binders) + filtered + "}"

    def mistaken(self, name, others, chance):
        return self.rng.choice(others) if others and self.rng.random() < chance else name

    def expression(self, ty, scope, depth):
        rng = self.rng
        if rng.random() < 0.015:
            return rng.choice([rng.choice(UNKNOWN), f"{rng.choice(UNKNOWN)}({self.leaf(ty, scope)})",
                               f"([] {rng.choice(UNKNOWN + ['x'])})", rng.choice(LOCALS)])
        if rng.random() < 0.02:
            ty = self.any_type()
        if depth <= 0 or rng.random() < 0.2:
            return self.leaf(ty, scope)
        if rng.random() < 0.15:
            return self.let(ty, scope, depth)
        if isinstance(ty, tuple) and ty[0] == "seq" and rng.random() < 0.4:
            if rng.random() < 0.3:
                return "[" + ", ".join(self.expression(ty[1], scope, depth - 1) for _ in range(rng.choice([1, 2, 3]))) + "]"
            return self.each(ty, scope, depth)
        return self.call(ty, scope, depth)

    # Apply-to-eachs whose bodies and filters are plain: constants, names, functions of scalars, elements and lengths of
    # names outside, `let` and `if`, and pairs.

    def named(self, names, ty):
        """A name of this type, if there is one. What comes first hides what comes after."""
        seen, known = set(), []
        for name, found in names:
            if found == ty and name not in seen:
                known.append(name)
            seen.add(name)
        return self.rng.choice(known) if known else None

    def scalar(self, ty, names, depth):
        rng = self.rng
        if depth <= 0 or rng.random() < 0.15:
            known = self.named(names, ty)
            if known and rng.random() < 0.8:
                return known
            constants = {INT: ["0", "1", "2", "3", "7", "1000", "3037000500", "9223372036854775807"], BOOL: ["T", "F"]}
            return rng.choice(constants.get(ty, ["`c", "`z"]))
        kind = rng.random()
        if kind < 0.1:
            return self.bound(ty, names, depth)
        if kind < 0.22:
            test = self.scalar(BOOL, names, depth - 1)
            return f"(if {test} then {self.scalar(ty, names, depth - 1)} else {self.scalar(ty, names, depth - 1)})"
        if kind < 0.3:
            text = self.outer(ty, names, depth)
            if text:
                return text
        rows = []
        for form, takes, gives in rng.sample(SCALARS, len(SCALARS)):
            given = {}
            if self.matched(gives, ty, given):
                rows.append((form, takes, given))
        form, takes, given = rng.choice(rows)
        for one in takes:
            self.fill(one, given)
        return form.format(*[self.scalar(instance(one, given), names, depth - 1) for one in takes])

    def bound(self, ty, names, depth):
        """A `let` of scalars, and of pairs of them."""
        rng = self.rng
        bindings = []
        for _ in range(rng.choice([1, 1, 2, 3])):
            held = [rng.choice([INT, INT, BOOL, CHAR]) for _ in range(rng.choice([1, 1, 1, 2, 3]))]
            fresh = rng.sample(["a", "b", "d", "e", "g", "h"], len(held))
            parts = [self.scalar(one, names, depth - 1) for one in held]
            if len(held) == 1:
                bindings.append(f"{fresh[0]} = {parts[0]}")
            elif rng.random() < 0.2:
                others = [self.scalar(one, names, 1) for one in held]
                test = self.scalar(BOOL, names, 1)
                bindings.append(f"({', '.join(fresh)}) = if {test} then ({', '.join(parts)}) else ({', '.join(others)})")
            else:
                bindings.append(f"({', '.join(fresh)}) = ({', '.join(parts)})")
            names = list(zip(fresh, held)) + names
        return f"(let {'; '.join(bindings)} in {self.scalar(ty, names, depth - 1)})"

    def outer(self, ty, names, depth):
        """An element of a sequence outside, or its length, if there is one that fits."""
        rng = self.rng
        if ty == INT and rng.random() < 0.3:
            known = self.named(names, seq(rng.choice([INT, BOOL, CHAR])))
            return f"(#{known})" if known else None
        known = self.named(names, seq(ty))
        if not known:
            return None
        place = self.scalar(INT, names, depth - 1)
        return f"{known}[{place}]" if rng.random() < 0.1 else f"{known}[rem(rem({place}, #{known}) + #{known}, #{known})]"

    def plain(self):
        rng = self.rng
        count = rng.choice(PLACES)
        names = [(name, rng.choice([INT, INT, INT, BOOL, CHAR])) for name in "abc"[:rng.choice([1, 1, 2, 3])]]
        binders = "; ".join(f"{name} in {rng.choice(PACKED[ty]).format(count + (rng.random() < 0.02))}"
                            for name, ty in names)
        outer = [("k", INT)] if rng.random() < 0.3 else []
        held = rng.choice([INT, INT, BOOL, CHAR])
        outer += [("m", seq(held))] if rng.random() < 0.3 else []
        known = names + outer + [(name, ty) for name, ty in self.variables.items()
                                 if isinstance(ty, str) or ty[0] == "seq" and isinstance(ty[1], str)]
        body = self.scalar(rng.choice([INT, INT, BOOL, CHAR]), known, rng.randrange(0, 5))
        if rng.random() < 0.15:
            body = f"({body}, {self.scalar(INT, known, 2)})"
        filtered = f" | {self.scalar(BOOL, known, rng.randrange(1, 4))}" if rng.random() < 0.4 else ""
        whole = "{" + body + " : " + binders + filtered + "}"
        for name, ty in outer:
            value = rng.choice([0, 1, 3, 1000]) if ty == INT else rng.choice(PACKED[held]).format(rng.choice([1, 2, 9, 1030]))
            whole = f"let {name} = {value} in {whole}"
        return rng.choice([f"#({whole});", f"take({whole}, {rng.choice([1, 5, -5])});", f"{whole};"])

    # Lines, each with a call that notes what it defined once the other program has taken it.

    def function(self):
        rng = self.rng
        name = self.name("f")
        variables = [("any", one, "any") for one in "ab"]
        takes = self.open_type(variables)
        pattern, names = self.pattern(takes)
        gives = rng.choice([ty for _, ty in names] + [self.open_type(variables), self.any_type()])
        kept = self.functions.get(name)
        if rng.random() < 0.2:
            self.functions[name] = (takes, gives)
        body = self.expression(gives, names, rng.randrange(1, 4))
        if kept is None:
            self.functions.pop(name, None)
        else:
            self.functions[name] = kept
        signature = self.signature(takes, gives) if rng.random() < 0.35 else ""
        parameter = pattern if pattern.startswith("(") else f"({pattern})"
        line = f"function {name}{parameter}{signature} = {body};"
        return line, lambda: self.define(name, self.functions, (takes, gives))

    def open_type(self, variables, levels=2):
        rng = self.rng
        if rng.random() < 0.5:
            return self.any_type()
        if levels == 0 or rng.random() < 0.5:
            return rng.choice(variables)
        if rng.random() < 0.5:
            return seq(self.open_type(variables, levels - 1))
        return pair(self.open_type(variables, levels - 1), self.open_type(variables, levels - 1))

    def signature(self, takes, gives):
        rng = self.rng
        if rng.random() < 0.15:
            takes = self.any_type()
        if rng.random() < 0.15:
            gives = self.any_type()
        if rng.random() < 0.3:
            takes, gives = [instance(ty, {"a": rng.choice([INT, B, seq(B)])}) for ty in (takes, gives)]
        text = f" : {text_of(takes)} -> {text_of(gives)}"
        if rng.random() < 0.4:
            names = ["a", "b", "c", *self.datatypes]
            members = [f"{rng.choice(names)} in {rng.choice(list(MEMBERS))}" for _ in range(rng.choice([1, 1, 2, 3]))]
            text += f" :: ({'; '.join(members)})"
        return text

    def define(self, name, table, what):
        for one in (self.variables, self.functions, self.datatypes):
            one.pop(name, None)
        table[name] = what

    def datatype(self):
        held = self.any_type()
        name = self.name("d")
        text = text_of(held) if self.rng.random() < 0.9 else f"({text_of(held)}, {self.rng.choice([name, 'q', 'x'])})"
        return f"datatype {name} {text};", lambda: self.define(name, self.datatypes, held)

    def binding(self):
        ty, name = self.any_type(), self.name("v")
        if self.rng.random() < 0.3:
            return f"it = {self.leaf(ty, [])};", lambda: self.define("it", self.variables, ty)
        return f"{name} = {self.leaf(ty, [])};", lambda: self.define(name, self.variables, ty)

    def line(self):
        kind = self.rng.random()
        if kind < 0.45:
            return self.function()
        if kind < 0.52:
            return self.datatype()
        if kind < 0.65:
            return self.binding()
        return f":type {self.expression(self.any_type(), [], self.rng.randrange(1, 5))};", lambda: None


# Lines of any text.

LARGEST = 9223372036854775807
WORDS = "function datatype let in if then else or nor xor and nand int bool char".split()
SIGNS = "( ) [ ] { } , ; : :: | = == /= < > <= >= + ++ - <- -> * / #".split()
NAMES = "x y a1 f2 sum dist point names budget type any number Foo X_1".split()
OPERATORS = "or nor xor and nand == /= < > <= >= + - ++ <- * / ->".split()
STRAY = "@$?!&~^_'.\\\x00\x01\x7f\x80\xe9\xff"


def number(rng):
    kind = rng.random()
    if kind < 0.6:
        return str(rng.randrange(100))
    if kind < 0.75:
        return str(rng.randrange(2 ** 32))
    if kind < 0.85:
        return "0" * rng.randrange(4) + str(rng.randrange(2 ** 63))
    if kind < 0.93:
        return str(LARGEST - rng.randrange(3))
    return str(rng.choice([3037000499, 3037000500, 2 ** 31, 2 ** 62]))


def blank(rng):
    return rng.choice(["", "", "", " ", " ", "  ", "\t", " \r ", "% note %"])


def formula(rng, count):
    text = blank(rng) + number(rng)
    for _ in range(count - 1):
        text += blank(rng) + rng.choice("++*") + blank(rng) + number(rng)
    return text + blank(rng)


def broken_formula(rng):
    text = list(formula(rng, rng.randrange(1, 6)) + ";")
    for _ in range(rng.randrange(1, 4)):
        place = rng.randrange(len(text) + 1)
        kind = rng.random()
        if kind < 0.4 and place < len(text):
            del text[place]
        elif kind < 0.8:
            text.insert(place, rng.choice(["+", "*", ";", " ", "7", "+ +", "99999999999999999999", ")", ",", "]"]))
        else:
            text.insert(place, rng.choice(STRAY))
    return "".join(text)


def text(rng):
    return '"' + "".join(rng.choice("ab %;`(\\") for _ in range(rng.randrange(5))) + '"'


def leaf(rng):
    return [rng.choice([number(rng), number(rng), "T", "f", "`x", "` ", "`%", text(rng), *NAMES])]


def written_type(rng, depth):
    kind = rng.random() if depth else 0
    if kind < 0.6:
        return [rng.choice(["int", "bool", "char", "point", "a"])]
    if kind < 0.8:
        return ["[", *written_type(rng, depth - 1), "]"]
    return ["(", *written_type(rng, depth - 1), ",", *written_type(rng, depth - 1), ")"]


def pattern(rng, depth):
    kind = rng.random() if depth else 0
    if kind < 0.6:
        return [rng.choice(NAMES)]
    if kind < 0.85:
        return ["(", *pattern(rng, depth - 1), ",", *pattern(rng, depth - 1), ")"]
    return ["point", "(", *pattern(rng, depth - 1), ")"]


def binders(rng, depth, sign):
    tokens = [*pattern(rng, 2), sign, *expression(rng, depth)]
    while rng.random() < 0.3:
        tokens += [";", *pattern(rng, 2), sign, *expression(rng, depth)]
    return tokens


def bracketed(rng, depth):
    part = lambda: expression(rng, depth)
    kind = rng.randrange(6)
    if kind == 0:
        return ["(", *part(), *([",", *part()] if rng.random() < 0.4 else []), ")"]
    if kind == 1:
        return ["[", *part(), *[t for _ in range(rng.randrange(3)) for t in [",", *part()]], "]"]
    if kind == 2:
        return ["[", *part(), ":", *part(), *([":", *part()] if rng.random() < 0.4 else []), "]"]
    if kind == 3:
        return ["[", "]", *written_type(rng, 2)]
    body = [*part(), ":"] if rng.random() < 0.7 else []
    return ["{", *body, *binders(rng, depth, "in"), *(["|", *part()] if rng.random() < 0.4 else []), "}"]


def expression(rng, depth):
    part = lambda: expression(rng, depth - 1)
    kind = rng.random() if depth > 0 else 0
    if kind < 0.30:
        return leaf(rng)
    if kind < 0.55:
        return [*part(), rng.choice(OPERATORS), *part()]
    if kind < 0.62:
        return [rng.choice("#-"), *part()]
    if kind < 0.68:
        return [*part(), "[", *part(), "]"]
    if kind < 0.75:
        return [rng.choice(NAMES), "(", *part(), *([",", *part()] if rng.random() < 0.4 else []), ")"]
    if kind < 0.80:
        return ["if", *part(), "then", *part(), "else", *part()]
    if kind < 0.85:
        return ["let", *binders(rng, depth - 1, "="), *([";"] if rng.random() < 0.3 else []), "in", *part()]
    return bracketed(rng, depth - 1)


def signature(rng):
    tokens = [":", *written_type(rng, 2), "->", *written_type(rng, 2)]
    if rng.random() < 0.4:
        members = ["a", "in", rng.choice(["any", "ordinal", "number", "logical", "more"])]
        tokens += ["::", "(", *members, *([";", *members] if rng.random() < 0.3 else []), ")"]
    return tokens


def form(rng):
    kind = rng.random()
    name = rng.choice(NAMES)
    if kind < 0.45:
        return [*expression(rng, rng.randrange(1, 5)), ";"]
    if kind < 0.60:
        return [name, "=", *expression(rng, rng.randrange(1, 4)), ";"]
    if kind < 0.78:
        head = ["function", name, *(["(", *pattern(rng, 2), ")"] if rng.random() < 0.8 else pattern(rng, 2))]
        return [*head, *(signature(rng) if rng.random() < 0.4 else []), "=", *expression(rng, 3), ";"]
    if kind < 0.88:
        return ["datatype", name, *written_type(rng, 3), ";"]
    return rng.choice([[":", "names"], [":", "Budget"], [":", "type", *expression(rng, 2), ";"]])


def any_token(rng):
    return rng.choice([rng.choice(WORDS), rng.choice(SIGNS), rng.choice(SIGNS), rng.choice(NAMES), *leaf(rng)])


def mutated(rng, tokens):
    place = rng.randrange(len(tokens) + 1)
    kind = rng.randrange(4)
    if kind == 0:
        return tokens[:place] + [any_token(rng)] + tokens[place:]
    if kind == 1:
        return tokens[:place] + tokens[place + 1:]
    if kind == 2:
        return tokens[:place] + tokens[place : place + 1] + tokens[place:]
    return tokens[:place] + [any_token(rng)] + tokens[place + 1:]


def spaced(rng, tokens):
    sparse = rng.random() < 0.2
    gaps = ["", "", " "] if sparse else [" ", " ", " ", "  ", "\t", "%a note%", " \r"]
    cased = [t.upper() if rng.random() < 0.05 and t in WORDS else t for t in tokens]
    return "".join(t + rng.choice(gaps) for t in cased)


def deep(rng):
    n = rng.randrange(95, 106)
    m = rng.choice([n, 2 * n])
    return rng.choice([
        "(" * m + "1" + ")" * m + ";",
        "[" * n + "1" + "]" * n + ";",
        "#" * n + "x;",
        "- " * n + "1;",
        "if T then 1 else " * n + "2;",
        "f2(" * n + "x" + ")" * n + ";",
        "x = " + "1 - " * n + "1;",
        "let x = 1 in " * n + "x;",
        "datatype d " + "[" * n + "int" + "]" * n + ";",
        "function g(" + "(x, " * n + "y" + ")" * n + ") = x;",
        "{1 : x in " * n + "v" + "}" * n + ";",
        "[] " + "[" * n + "int" + "]" * n + ";",
        ":type " + "x[" * n + "1" + "]" * n + ";",
        "1" + " or 1" * n + rng.choice([";", "", " +;"]),
    ])


def any_line(rng):
    kind = rng.random()
    if kind < 0.06:
        return rng.choice([blank(rng), "% note %", "%%", "%", "% open", '"open', "1; % open", "`", "x`"])
    if kind < 0.30:
        return spaced(rng, form(rng))
    if kind < 0.58:
        return spaced(rng, mutated(rng, form(rng)))
    if kind < 0.66:
        return spaced(rng, mutated(rng, mutated(rng, mutated(rng, form(rng)))))
    if kind < 0.78:
        return spaced(rng, [any_token(rng) for _ in range(rng.randrange(12))])
    if kind < 0.82:
        return deep(rng)
    line = list(spaced(rng, form(rng)))
    stray = rng.choice([rng.choice(STRAY), rng.choice('%"`'), chr(rng.choice([b for b in range(256) if b != 10]))])
    line.insert(rng.randrange(len(line) + 1), stray)
    return "".join(line)
