"""The help texts of a program, read: its commands, arguments and options, and the texts beside them. The manual page
and the completion are made of what is read here, so no word of them is written twice.
"""
import re
import subprocess
import textwrap
from dataclasses import dataclass, field

ENTRY = re.compile(r" {2,6}(\S.*?)(?: {2,}(\S.*))?")
MORE = re.compile(r" {7,}(\S.*)")
OPTION = re.compile(r"(-\w)?(?:, )?(--[\w-]+)?(?: (<[^<>]+>(?:\.\.\.)?))?")
SECTIONS = {"Commands:": "commands", "Arguments:": "arguments", "Options:": "options"}
QUOTED = re.compile(r"`([^`]+)`")


class Unread(Exception):
    """A line of a help text that isn't as this reader knows them."""


@dataclass
class Option:
    short: str
    long: str
    value: str
    text: str

    def words(self):
        return [word for word in (self.short, self.long) if word]


@dataclass
class Help:
    """The help of one command: `words` is how the command is called."""
    words: list
    about: str = ""
    usage: str = ""
    commands: list = field(default_factory=list)
    arguments: list = field(default_factory=list)
    options: list = field(default_factory=list)
    rest: str = ""

    def own_commands(self):
        """The commands without `help`, which every program of this kind has."""
        return [name for name, _ in self.commands if name != "help"]


def option(head, text):
    found = OPTION.fullmatch(head)
    if not found or not (found[1] or found[2]):
        raise Unread(f"no option: {head!r}")
    return Option(found[1] or "", found[2] or "", found[3] or "", text)


def entries(lines, where):
    """The entries of a section: what is explained, and the text beside it or below it."""
    found = []
    for line in lines:
        entry, more = ENTRY.fullmatch(line), MORE.fullmatch(line)
        if entry:
            found.append([entry[1], entry[2] or ""])
        elif more and found:
            found[-1][1] = f"{found[-1][1]} {more[1]}".strip()
        elif line:
            raise Unread(f"{where}: {line!r}")
    return [tuple(one) for one in found]


def read(words, text):
    """A help text: what it is about, the usage, the sections, and the rest as it is."""
    it, lines = Help(words), text.rstrip("\n").split("\n")
    place = next((place for place, line in enumerate(lines) if line.startswith("Usage: ")), None)
    if place is None:
        raise Unread(f"{' '.join(words)}: no usage")
    it.about = " ".join(line for line in lines[:place] if line)
    it.usage = lines[place].removeprefix("Usage: ")
    place += 1
    while place < len(lines) and (not lines[place] or lines[place] in SECTIONS):
        name, start = SECTIONS.get(lines[place]), place + 1
        place = start
        while name and place < len(lines) and (not lines[place] or lines[place].startswith(" ")):
            place += 1
        if name:
            found = entries(lines[start:place], " ".join(words))
            setattr(it, name, [option(*one) for one in found] if name == "options" else found)
    it.rest = "\n".join(lines[place:])
    return it


def helps(program):
    """The help of the program, and then of each of its commands, each before its own."""
    def ask(*words):
        ran = subprocess.run([program, *words, "--help"], stdout=subprocess.PIPE, check=True)
        return read(["pazkindu", *words], ran.stdout.decode())

    def below(it):
        return [it, *(one for name in it.own_commands() for one in below(ask(*it.words[1:], name)))]
    return below(ask())


# The manual page.

SIGNS = str.maketrans({"\\": "\\e", "-": "\\-", "'": "\\(aq", "^": "\\(ha", "~": "\\(ti"})


def escaped(text):
    """Text as roff has it, in which every sign means itself."""
    return guarded(text.translate(SIGNS))


def guarded(line):
    """A line that isn't taken for a request."""
    return "\\&" + line if line.startswith(".") else line


def prose(text):
    """A paragraph, each sentence on lines of its own, and what is quoted in bold."""
    out = []
    for sentence in re.sub(r"([.?!]) (?=[A-Z:`])", r"\1\n", " ".join(text.split())).split("\n"):
        shown = QUOTED.sub(lambda found: f"\\fB{found[1]}\\fR", sentence.translate(SIGNS))
        out += textwrap.wrap(shown, 78, break_long_words=False, break_on_hyphens=False)
    return [guarded(line) for line in out]


def paragraphs(text):
    """Paragraphs as they are filled, and what is indented as it is."""
    out = []
    for block in re.split(r"\n\n+", text.strip("\n")):
        lines = block.split("\n")
        if all(line.startswith("    ") for line in lines):
            out += [".IP", ".EX", *(escaped(line[4:]) for line in lines), ".EE"]
        elif block:
            out += [".PP", *prose(block)]
    return out


def usage(text):
    """A usage line: what is typed as it is is bold, and what is replaced by something is italic."""
    text = re.sub(r"<([^<>]+)>", r"\\fI\1\\fR", escaped(text))
    return re.sub(r"(?<![\w\\<])(pazkindu(?: [a-z]+){0,2}|\\-\\-[\w\\-]+?)(?= |$)", r"\\fB\1\\fR", text)


def tagged(head, text):
    return [".TP", head, *prose(text)]


def option_head(one):
    words = ", ".join(f"\\fB{escaped(word)}\\fR" for word in one.words())
    return words + (f" \\fI{escaped(one.value.strip('<>'))}\\fR" if one.value else "")


def command(it):
    """A command as a part of the page."""
    out = [f".SS {escaped(' '.join(it.words[1:]))}", *prose(it.about + "."), ".PP", usage(it.usage)]
    for name, text in it.arguments:
        out += tagged(f"\\fI{escaped(name.replace('<', '').replace('>', ''))}\\fR", text)
    for one in it.options:
        out += tagged(option_head(one), one.text)
    return out + paragraphs(it.rest)


def page(found, version, date, more):
    """The manual page of a program, by its helps; `more` is what the help texts don't have, as roff."""
    top, own = found[0], found[1:]
    out = [f'.TH PAZKINDU 1 "{date}" "pazkindu {version}" "User Commands"', ".SH NAME",
           f"pazkindu \\- {escaped(top.about)}", ".SH SYNOPSIS"]
    for it in own:
        out += [] if it.own_commands() else [usage(it.usage), ".br"]
    out[-1:] = [".SH DESCRIPTION", *paragraphs(top.rest)[1:], ".SH COMMANDS"]
    for it in own:
        out += command(it)
    out.append(".SH OPTIONS")
    for one in top.options:
        out += tagged(option_head(one), one.text)
    return "\n".join(out) + "\n" + more


# The completion.

def cases(found):
    """The arms of the completion: for each command its words, and those of them that a value follows."""
    def words_of(it):
        return [word for one in it.options for word in one.words()]
    top, own = found[0], found[1:]
    commands = [name for name, _ in top.commands]
    out = [f'        "") words="{" ".join([*commands, *words_of(top)])}" ;;']
    for it in own:
        if len(it.words) == 2:
            words = " ".join([*(name for name, _ in it.commands), *words_of(it)])
            valued = " ".join(word for one in it.options if one.value for word in one.words())
            out.append(f'        {it.words[-1]}) words="{words}" valued="{valued}" ;;')
    if "help" in commands:
        out.append(f'        help) words="{" ".join(commands)}" ;;')
    return "\n".join(out)
