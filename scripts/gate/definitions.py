"""The definitions of specs/, the public clauses that mention them, and the claim; read from the sources.

A definition is believed where a public clause mentions it: a `requires` or an `ensures` of a public function, or what a
public type is to its callers; or where a definition that is believed mentions it. Those that the claim's calls mention
are the claim's; the prover alone holds the others to each other. Words of the kit's library count too, those of its
Prelude included.
"""
import re
from collections import defaultdict, namedtuple

from gate.library import signs_in
from lib import TOP, crates as listed

KIT = "std"

# The calls whose clauses are the claim: a function, one of a type, or a type or trait with all of its calls.
CLAIM = (
    "answer_text", "House::new", "House::users", "House::run", "House::run_with", "Answer::bytes", "own_lines_decide",
    "batch", "Source", "Sink", "serve", "Table", "serve_and_keep", "Keeper",
    "FileKeeper",
)

# The sections in reading order, each with its files. Where two files have one name, a definition follows it.
SECTIONS = (
    ("Tokens", "Tokens Lexemes"),
    ("Trees", "Trees Grammar Lines.IsForm"),
    ("Values", "Tree Parts"),
    ("Types", "Term Class Substitution Numbering FunctionTypes Named"),
    ("Names that refer to nothing", "Names.names_from Uses Firsts"),
    ("Typing", "World Typing Principal Verdicts"),
    ("Functions on scalars", "Outcomes Integers Scalars"),
    ("Functions on sequences", "Outcome.if_there Arguments Reductions Pieces Ranges Pairs Equal Extremes Scans Levels "
     "Sides Woven Places Gather Permute Write Meaning Prices"),
    ("Outcomes of expressions", "Names.Environment Out Outcome.out"),
    ("The names of a session", "Meanings Known Referred Redefinition"),
    ("Replies", "Texts Faults Values Replies"),
    ("The step of a session", "Reading State Response Finding Step Solo"),
    ("Scripts of many users", "Script Runs Roster Said Laws"),
    ("Conversations", "Lines.WholeLines Conversation Exchange Tally Batch"),
    ("The table and its leases", "Register Renewal Table.IsClosed Guest Serve"),
    ("Sessions that are kept", "Keeping Scroll Device Files"),
)

WORD = re.compile(r"[^\W\d]\w*'*(?:-\w+)*")
USE = re.compile(r"^\s*(?:pub use|ghost use|use) +Rattle\.([\w.\-]+?)(?:\.\{([^}]*)\}| as (\w+))?;?\s*$", re.M)
OPENING = r"(?:(?:abbrev|unfoldable|pub|record|data) +)+"
OPENS = re.compile(OPENING + r"(?P<name>[A-Za-z_][\w'-]*)")
BLOCK = re.compile(r"((abbrev +)?mutual|module .*where)$")
MODULE = re.compile(r"^module\b.*?\bwhere$", re.M | re.S)

# A function, or a ghost member of a type or a trait: its crate, its file, the type or trait that it belongs to, its
# name, its lines up to its body, and its clauses, each with its keyword and label.
Call = namedtuple("Call", "crate file owner name lines clauses")


def without_comments(text, mark):
    return "\n".join(line.split(mark)[0] for line in text.splitlines())


def crates():
    """The names of the crates, each after those that it is built on."""
    there, order = sorted(path.parent.name for path in TOP.glob("crates/*/src")), listed()
    return [crate for crate in order if crate in there] + [crate for crate in there if crate not in order]


def imports(text):
    """The names that a file brings in, and its names for other files: each to (crate, file)."""
    names, files = {}, {}
    for path, listed, alias in USE.findall(text):
        parts = path.split(".")
        if len(parts) < 3 or parts[1] != "specs" or "declared" in parts:
            continue
        place = (parts[0], ".".join(parts[2:]))
        for name in re.split(r",\s*", listed or ""):
            names[name.split(" as ")[-1].strip()] = (*place, name.split(" as ")[0].strip())
        if alias:
            files[alias] = place
    return names, files


def declared(text):
    """The names that a file of specs/ brings in from types of the code: each to (crate, type)."""
    names = {}
    for path, listed, alias in USE.findall(text):
        parts = path.split(".")
        if "declared" in parts and parts[0] != KIT:
            inner = parts[parts.index("declared") + 1:]
            types = [part for part in inner if part[0].isupper() and part != "TheVariants"]
            for name in re.split(r",\s*", listed or "") + [alias]:
                if name and types:
                    names[name.split(" as ")[-1].strip()] = (parts[0], types[0])
    return names


def renamed(text):
    """What a file of specs/ calls otherwise than where it is defined: each name, or name before a dot, with that."""
    meant = {}
    for path, listed, alias in USE.findall(text):
        crate, *_, last = path.split(".")
        types = [part for part in path.split(".") if part[0].isupper() and part != "TheVariants"]
        home = f"{types[0] if types else last} ({crate})"
        if alias:
            meant[alias + "."] = home
        for name, other in re.findall(r"(\S+) as ([^\s,}]+)", listed):
            meant[other] = f"{name} of {home}"
    return meant


class Definitions:
    """The definitions of every specs/ folder: (crate, file, name) to its text without comments; its constructors and
    fields to it; and what is printed of it."""

    def __init__(self):
        self.text, self.owner, self.scope = {}, {}, {}
        self.lines, self.note, self.block, self.heading, self.types, self.renamed = {}, {}, {}, {}, {}, {}
        for path in sorted(TOP.glob("crates/*/specs/*.antt")):
            crate, file = path.parts[-3], path.stem
            if file != "Lib":
                self.read(crate, file, path.read_text())
        self.order = {place: number for number, place in enumerate(self.text)}

    def read(self, crate, file, text):
        self.scope[crate, file] = imports(text)
        self.types[crate, file] = declared(text)
        self.renamed[crate, file] = renamed(text)
        current, comment, block, about = None, [], None, []
        for line in MODULE.sub(lambda header: " ".join(header.group().split()), text).splitlines():
            bare = line.split("--")[0].rstrip()
            if line.lstrip().startswith("--"):
                comment.append(line.rstrip())
                continue
            if not bare:
                continue
            if re.match(r"(pub )?use ", bare):
                if comment:
                    self.heading.setdefault((crate, file), comment)
                comment = []
                continue
            if BLOCK.match(bare):
                block, about, comment, current = comment + [bare], comment, [], None
                continue
            block = block if bare.startswith(" ") else None
            opens = OPENS.match(bare[2:] if block else bare)
            if opens:
                current = (crate, file, opens.group("name"))
                self.text[current], self.lines[current], self.block[current] = "", [], block
                self.note[current], about = words(comment or about), []
            elif current:
                field = re.match(r" +(?:pub )?([A-Za-z_][\w'-]*) :", bare)
                if field and re.match(r"(pub +)?(record|data)\b", self.text[current].lstrip()):
                    self.owner[crate, file, field.group(1)] = current
            if current:
                self.text[current] += bare + "\n"
                self.lines[current] += comment + [line.rstrip()]
                comment = []

    def find(self, place):
        """Where a name is defined that a file brings in."""
        if place in self.text:
            return place
        if place in self.owner:
            return self.owner[place]
        crate, file, name = place
        if crate == KIT:
            return place
        passed = self.scope.get((crate, file), ({}, {}))[0].get(name)
        return self.find(passed) if passed and passed != place else None

    def mentioned(self, text, names, files, own=None):
        """The definitions that a text mentions, where these names are brought in."""
        found = set()
        for match in re.finditer(r"(?:\b(\w+)\.)?(" + WORD.pattern + ")", text):
            before, name = match.groups()
            if before in files:
                place = (*files[before], name)
            elif match.start() and text[match.start() - 1] == "." or before:
                if before and before in names:
                    found.add(self.find(names[before]))
                continue
            elif name in names:
                place = names[name]
            elif own and ((*own, name) in self.text or (*own, name) in self.owner):
                place = (*own, name)
            else:
                continue
            found.add(self.find(place))
        found |= {self.find(names[sign]) for sign in signs_in(text, names)}
        return {place for place in found if place}

    def within(self, place):
        """The definitions that a definition mentions."""
        if place not in self.text:
            return set()
        crate, file, _ = place
        return self.mentioned(self.text[place], *self.scope[crate, file], own=(crate, file)) - {place}

    def types_within(self, place):
        """The types of the code that a definition mentions."""
        known = self.types.get(place[:2], {})
        return {known[name] for name in WORD.findall(self.text.get(place, "")) if name in known}

    def names_within(self, places):
        """Of the names that their file calls otherwise, those that these definitions mention."""
        text = "\n".join(self.text[place] for place in places)
        known = self.renamed[places[0][:2]]
        return {name: home for name, home in known.items() if re.search(r"(?<![\w.])" + re.escape(name), text)}

    def count_lines(self, places):
        return sum(self.text[place].count("\n") for place in places if place in self.text)


def words(comment):
    """What a comment says, on one line."""
    return " ".join(line.strip().lstrip("-").strip() for line in comment)


def braced(text, at):
    """The text between the brace at this place and its partner."""
    depth = 0
    for end in range(at, len(text)):
        depth += {"{": 1, "}": -1}.get(text[end], 0)
        if depth == 0:
            return text[at + 1:end]
    return text[at + 1:]


def public_items(crate):
    """Each source file of a crate with the names of it that callers reach; None for all of its public ones."""
    source = TOP / "crates" / crate / "src"
    reached = {}
    pending = [(source / ("lib.rt" if (source / "lib.rt").exists() else "main.rt"), source, None)]
    while pending:
        file, folder, only = pending.pop()
        text = without_comments(file.read_text(), "//")
        reached[file] = only
        whole = file.name == "main.rt"
        exported = defaultdict(set)
        for path, listed in re.findall(r"^\s*pub use (?:crate::|self::)?([\w:]+?)(?:::\{([^}]*)\})?;", text, re.M):
            parts = path.split("::")
            if listed:
                exported[parts[0]] |= {name.strip() for name in listed.split(",")}
            else:
                exported[parts[0]].add(parts[-1])
        for is_test, public, name in re.findall(r"^(#\[cfg\(test\)\]\n)?(pub )?mod (\w+);", text, re.M):
            inner = next((p for p in (folder / f"{name}.rt", folder / name / "mod.rt") if p.exists()), None)
            if is_test or not inner:
                continue
            shown = None if (public and only is None) or whole else exported[name]
            pending.append((inner, folder / name, shown))
    return reached


def head(line):
    """The type or trait whose block a line opens, and whether all that is there is public; or nothing."""
    if re.match(r"pub trait\b", line):
        return re.match(r"pub trait (\w+)", line).group(1), True
    if re.match(r"(unsafe )?impl\b", line):
        of_trait = " for " in line
        target = line.split(" for ")[-1] if of_trait else re.sub(r"^impl(<[^>]*(?:<[^>]*>[^>]*)*>)?\s*", "", line)
        name = re.match(r"\s*(\w+)", re.sub(r"<.*", "", target))
        return (name.group(1) if name else ""), of_trait
    return None


def calls(crate):
    """The public calls of a crate, what its public types are to callers (`Value` and `view`), and what its keepers keep
    and leave."""
    reached = public_items(crate)
    types = {name for only in reached.values() for name in only or ()}
    for file, only in reached.items():
        if only is None:
            types |= set(re.findall(r"^pub (?:struct|enum|trait) (\w+)", file.read_text(), re.M))
    return [call for file, only in reached.items() for call in calls_in(crate, file, only, types)]


def calls_in(crate, file, only, types):
    """The public calls of a source file, of which callers reach these names, in a crate with these public types."""
    whole = file.read_text()
    text = without_comments(whole, "//")
    raw = whole.splitlines()
    found, block, call, docs, position, closed = [], None, None, [], 0, 0
    for number, line in enumerate(text.splitlines(keepends=True)):
        if head(line):
            block = head(line)
        elif line.startswith("}"):
            block = None
        if re.match(r"\s*///", raw[number]):
            docs.append(raw[number])
        function = re.match(r"\s*(pub(?:\([a-z]+\))? )?(?:const )?(?:unsafe )?fn (\w+)", line)
        if function:
            public = function.group(1) == "pub "
            if block and line.startswith(" "):
                seen = block[0] in types and (public or block[1])
            else:
                seen = file.name == "main.rt" or public and (only is None or function.group(2) in only)
            call = Call(crate, file, block[0] if block else None, function.group(2), list(docs), []) if seen else None
            if call:
                found.append(call)
        if re.match(r"\s*\{", line) or line.startswith("}"):
            call = None
        if call:
            call.lines.append(raw[number].rstrip())
        clause = re.match(r"\s*((?:requires|ensures)\*?\s*\w*)\s*\{", line)
        if clause and call:
            inner = braced(text, position + clause.end() - 1)
            call.clauses.append((clause.group(1).strip(), inner))
            closed = position + clause.end() + len(inner)
        if call and line.rstrip().endswith(";") and position + len(line) > closed:
            call = None
        model = re.match(r"\s*ghost (?:(Value|view|keeps|leaves)\s*=|(\w+):)\s*\{", line)
        if model and block and block[0] in types:
            name = model.group(1) or model.group(2)
            inner = braced(text, position + model.end() - 1)
            found.append(Call(crate, file, block[0], name, docs + [raw[number].rstrip()], [(f"ghost {name}", inner)]))
        if not re.match(r"\s*(///|#\[)", raw[number]):
            docs = []
        position += len(line)
    return found


class Types:
    """The public types of the code: (crate, type) to its lines without private fields, and to the names it may use."""

    def __init__(self):
        self.lines, self.parts, self.homes, self.traits = {}, {}, defaultdict(list), set()
        for crate in crates():
            for path in sorted((TOP / "crates" / crate / "src").rglob("*.rt")):
                self.read(crate, path.read_text())

    def read(self, crate, text):
        docs, current, is_struct = [], None, False
        self.traits |= {(crate, name) for name in re.findall(r"^pub trait (\w+)", text, re.M)}
        for line in text.splitlines():
            if line.startswith("///"):
                docs.append(line)
            opens = re.match(r"pub (?:struct|enum) (\w+)", line)
            if opens:
                current = (crate, opens.group(1))
                self.lines[current], self.parts[current] = docs, names_in(text, crate)
                self.homes[opens.group(1)].append(crate)
                is_struct = line.startswith("pub struct")
            is_shown = opens or line.startswith("}") or not is_struct or re.match(r"\s*(///|pub )", line)
            if current and is_shown and not line.lstrip().startswith("#["):
                self.lines[current].append(line)
            if not re.match(r"///|#\[", line):
                docs = []
            if line.startswith("}") or opens and re.search(r"[;}]$", line):
                current = None

    def find(self, crate, name):
        """The type that a name means: the crate's own, or the only one so called that a crate has."""
        homes = self.homes.get(name, [])
        if (crate, name) in self.traits:
            return None
        return (crate, name) if crate in homes else (homes[0], name) if len(homes) == 1 else None

    def within(self, place):
        """The types of a type's public fields and variants."""
        return self.named(self.parts[place], without_comments("\n".join(self.lines[place]), "//")) - {place}

    def named(self, known, text):
        """The types that a text names, where these names are brought in."""
        found = {self.find(known[name], name) for name in WORD.findall(text) if name in known}
        return {place for place in found if place}


def names_in(text, crate):
    """The names of types that a source file has or brings in, each to the crate that it comes from."""
    names = {name: crate for name in re.findall(r"^pub (?:struct|enum) (\w+)", text, re.M)}
    for home, listed, single in re.findall(r"^use (\w+)::[\w:]*?(?:\{([^}]*)\}|(\w+));", text, re.M):
        for name in re.split(r",\s*", listed or single):
            if home != KIT:
                names[name.strip()] = crate if home == "crate" else home
    return names


def asked_by(definitions, calls):
    """The definitions that the clauses of these calls mention, each with the file of a call."""
    reason = {}
    for call in calls:
        names, files = imports(call.file.read_text())
        for _, clause in call.clauses:
            for place in definitions.mentioned(clause, names, files):
                reason.setdefault(place, str(call.file.relative_to(TOP)))
    return reason


def closure(definitions, reason):
    """These definitions with all that they mention, each with what asks for it."""
    reason, pending = dict(reason), list(reason)
    while pending:
        place = pending.pop()
        for inner in definitions.within(place):
            if inner not in reason:
                reason[inner] = f"{place[2]} ({place[0]}, {place[1]})"
                pending.append(inner)
    return reason


def between_crates(claim):
    """What public clauses mention besides the claim: each crate with its files, each with its definitions in order."""
    order = claim.definitions.order
    by_crate = defaultdict(lambda: defaultdict(list))
    for place in sorted(claim.between, key=lambda place: (order.get(place, 0), place)):
        by_crate[place[0]][place[1]].append(place)
    return [(crate, by_crate[crate]) for crate in [*crates(), KIT] if crate in by_crate]


def title(call):
    """How the claim names a call."""
    return f"{call.owner}::{call.name}" if call.owner else call.name


class Claim:
    """The claim's calls, in the order of CLAIM; what they mention; and what other public clauses mention besides."""

    def __init__(self):
        self.definitions = Definitions()
        self.all_calls = [call for crate in crates() for call in calls(crate)]
        self.code = Types()
        self.calls = [call for name in CLAIM for call in self.named(name)]
        self.types = self.types_of_calls()
        self.calls += [call for place in self.types for call in self.models(place)]
        self.needed = closure(self.definitions, asked_by(self.definitions, self.calls))
        everything = closure(self.definitions, asked_by(self.definitions, self.all_calls))
        self.between = {place: why for place, why in everything.items() if place not in self.needed}
        self.sections = self.parted()

    def named(self, name):
        """The calls that a name of CLAIM means."""
        found = [call for call in self.all_calls
                 if call.clauses and call.name not in ("view", "Value") and name in (title(call), call.owner)]
        if len({call.crate for call in found}) != 1:
            raise SystemExit(f"gate/definitions.py: {name}, of CLAIM, is no public call, or one of several crates")
        return found

    def models(self, place):
        """What a type is to its callers."""
        return [call for call in self.all_calls if (call.crate, call.owner, call.name) == (*place, "Value")]

    def types_of_calls(self):
        """The types that the claim's calls name, and those of their public fields, in the order of the calls."""
        pending, found = [], {}
        for call in self.calls:
            known = names_in(call.file.read_text(), call.crate)
            signature = re.split(r"\n\s*(?:requires|ensures)", without_comments("\n".join(call.lines), "//"))[0]
            pending += sorted(self.code.named(known, f"{signature} {call.owner}"))
        while pending:
            place = pending.pop(0)
            if place not in found:
                found[place] = True
                pending += sorted(self.code.within(place))
        return list(found)

    def parted(self):
        """The claim's definitions by section: its title, and its files, each with its definitions as they are."""
        left = defaultdict(list)
        for place in sorted((place for place in self.needed if place[0] != KIT), key=self.definitions.order.get):
            left[place[:2]].append(place)
        sections = []
        for heading, entries in SECTIONS:
            files = []
            for entry in entries.split():
                file, _, name = entry.partition(".")
                fits = [key for key in left if key[1] == file and (not name or (*key, name) in self.needed)]
                if len(fits) != 1:
                    raise SystemExit(f"gate/definitions.py: {len(fits)} files of the claim are {entry}, of SECTIONS")
                files.append((fits[0], left.pop(fits[0])))
            sections.append((heading, files))
        if left:
            files = ", ".join(f"{file} of {crate}" for crate, file in left)
            raise SystemExit(f"gate/definitions.py: SECTIONS lacks {files}")
        return sections

    def kit_words(self, places):
        """Those of these definitions that are words of the kit's library; its Prelude only passes words on."""
        words = {place[1:] for place in places if place[0] == KIT}
        elsewhere = {name for file, name in words if file != "Prelude"}
        return sorted((file, name) for file, name in words if file != "Prelude" or name not in elsewhere)

    def types_in(self, places):
        """The types of the code that these definitions mention, and those of their public fields and variants."""
        pending = [place for at in places for place in sorted(self.definitions.types_within(at))]
        found = {}
        while pending:
            place = self.code.find(*pending.pop(0))
            if place and place not in found:
                found[place] = True
                pending += sorted(self.code.within(place))
        return list(found)

    def all_types(self):
        """The types of the code that the claim's calls and definitions speak of."""
        places = [place for _, files in self.sections for _, there in files for place in there]
        return list(dict.fromkeys(self.types + self.types_in(places)))

    def type_lines(self):
        """The lines of these types, without comments."""
        return sum(not line.lstrip().startswith("///") for place in self.all_types() for line in self.code.lines[place])
