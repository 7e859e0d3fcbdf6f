"""The texts of words of the kit's library, and of all that they mention in turn; read from the kit's sources.

A word is passed on from file to file under the name that a program uses, and defined in one of them: in the library's
specs/, in the logic below it, or in the port of mathlib. What the prover itself knows has no text: a number, a path, a
type of Rust. Without the kit there is none of this, and `library_of` gives None.
"""
import re
import subprocess
from pathlib import Path

# Where the kit has the files of a name's first part.
HOMES = {
    "lib": "logic/Lib", "denote": "logic/Denote", "mir": "logic/Mir", "mathlib": "antt/port/mathlib/src",
    "native": "antt/lib/native/src", "text": "antt/lib/native-text/src",
}
NAME = r"[^\s:(){},;.\[\]]+"
WORD = re.compile(r"[^\W\d]\w*'*(?:-\w+)*")
OPENS = re.compile(rf"(?:(?:abbrev|unfoldable|pub|record|data) +)+(?P<name>{NAME}|\[\])")
PRIVATE = re.compile(rf"(?P<name>{NAME})(?: \{{[^}}]*\}})* : ")
BLOCK = re.compile(r"((abbrev +)?mutual|module .*where)$")
USE = re.compile(r"(?:unfoldable +)?(?:pub +)?use +([\w.]+?)(?:\.\{([^}]*)\}| as (\w+))?$")


def kit_folder():
    """The folder of the kit's crates, or None where there is no kit."""
    try:
        page = subprocess.run(["rt", "doc"], check=True, stdout=subprocess.PIPE, text=True).stdout.strip()
    except (OSError, subprocess.CalledProcessError):
        return None
    return Path(page).parent / "rattle"


def library_of(words):
    """What these words rest on, each (file, name) of the library std; or None where there is no kit."""
    folder = kit_folder()
    return folder and Library(folder, words)


def sign_parts(name):
    """What is written of a name with places for its arguments: `+` of `◌+◌`, and `if`, `then`, `else`."""
    return [part for part in name.split("◌") if part]


def signs_in(text, names):
    """Those of these names that aren't words and that a text has, with their arguments between."""
    signs = [name for name in names if not WORD.fullmatch(name)]
    tokens = set(re.split(r"[\s()\[\]{},;.]+", text)) if signs else ()
    return {name for name in signs if (name in text if name == "[]" else set(sign_parts(name)) <= set(tokens))}


class File:
    """A file of the kit: its definitions with their lines, the constructors of each, and what it brings in."""

    def __init__(self, text):
        self.lines, self.text, self.owner, self.imports, self.files = {}, {}, {}, {}, {}
        current, comment, in_block = None, [], False
        for line in text.splitlines():
            bare = line.split("--")[0].rstrip()
            if line.lstrip().startswith("--"):
                comment.append(line)
            elif not bare:
                comment = comment if current is None else []
            elif USE.match(bare):
                self.bring_in(*USE.match(bare).groups())
                comment = []
            elif BLOCK.match(bare):
                in_block, current = True, None
            else:
                in_block = in_block and bare.startswith(" ")
                current = self.take(bare[2:] if in_block else bare, line, current, comment)
                comment = []

    def bring_in(self, module, listed, alias):
        for name in re.split(r",\s*", listed or ""):
            self.imports[name.split(" as ")[-1].strip()] = (module, name.split(" as ")[0].strip())
        if alias:
            self.files[alias] = module

    def take(self, bare, line, current, comment):
        """Adds a line to the definition that it opens or continues, and answers that one."""
        opens = OPENS.match(bare) or PRIVATE.match(bare)
        if opens and not bare.startswith(" "):
            current = opens.group("name")
            self.lines[current], self.text[current] = list(comment), ""
        elif re.match(r"infix[lr]? ", bare):
            return None
        if current:
            self.lines[current].append(line)
            self.text[current] += bare + "\n"
            fields = re.match(rf" +(?:pub )?((?:{NAME}|\[\])(?: +(?:{NAME}|\[\]))*) : ", bare)
            if fields and re.match(r"(?:\w+ +)*(record|data)\b", self.text[current]):
                self.owner.update(dict.fromkeys(fields.group(1).split(), current))
        return current


class Library:
    """What some words rest on: `found`, each module with its definitions; and `built_in`, what has no text."""

    def __init__(self, root, words):
        self.root, self.files, self.built_in = root, {}, set()
        self.homes = {word: self.find(f"Rattle.std.specs.{word[0]}", word[1]) for word in words}
        pending = [home for home in self.homes.values() if home]
        reached = set(pending)
        while pending:
            for place in self.within(*pending.pop()) - reached:
                reached.add(place)
                pending.append(place)
        self.found = {}
        for module in sorted({module for module, _ in reached}):
            self.found[module] = [name for name in self.files[module].text if (module, name) in reached]

    def path(self, module):
        """The file of a module, or None where the prover itself has it."""
        first, *rest = module.split(".")
        if first in HOMES:
            return self.root / HOMES[first] / f"{'/'.join(rest)}.antt"
        if first == "Rattle" and "declared" not in rest:
            return self.root / rest[0] / f"{'/'.join(rest[1:])}.antt"
        return None

    def home(self, module):
        """The module that this one is; the library passes on those of the crates below it under its own name."""
        path = self.path(module)
        if path is None or path.exists():
            return module
        _, crate, _, *rest = module.split(".")
        passed = (self.root / crate / "specs" / "Lib.antt").read_text()
        below = re.search(rf"^pub use Rattle\.(\w+)\.specs\.{rest[0]}$", passed, re.M)
        return f"Rattle.{below.group(1)}.specs.{'.'.join(rest)}" if below else module

    def file(self, module):
        if module not in self.files:
            path = self.path(module)
            self.files[module] = File(path.read_text()) if path and path.exists() else None
        return self.files[module]

    def find(self, module, name):
        """The module and the name of what defines this; None where it has no text."""
        module = self.home(module)
        file = self.file(module)
        if file and name in file.text:
            return module, name
        if file and name in file.owner:
            return module, file.owner[name]
        if file and name in file.imports and file.imports[name] != (module, name):
            return self.find(*file.imports[name])
        self.built_in.add((module, name))
        return None

    def within(self, module, name):
        """What a definition mentions."""
        file, found = self.file(module), set()
        text = file.text[name]
        known = {*file.text, *file.owner, *file.imports}
        bound = set(re.findall(r"\w+", " ".join(re.findall(r"[({]([\w' ]+) :", text))))
        for match in re.finditer(rf"(?:\b(\w+)\.)?({WORD.pattern})", text):
            before, word = match.groups()
            if before in file.files:
                found.add(self.find(file.files[before], word))
            elif word in known and word not in bound and word != name and not before:
                found.add(self.find(module, word))
        found |= {self.find(module, sign) for sign in signs_in(text, known) if sign != name}
        return {place for place in found if place} - {(module, name)}

    def named_built_in(self):
        """The names of what has no text; of a type's variants the type alone."""
        types = {module.split(".declared.")[1].split(".")[1] for module, _ in self.built_in if ".declared." in module}
        return sorted({name for module, name in self.built_in if ".declared." not in module} | types)

    def count_lines(self):
        return sum(self.files[module].text[name].count("\n") for module, names in self.found.items() for name in names)

    def count(self):
        return sum(len(names) for names in self.found.values())
