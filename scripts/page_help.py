"""The help as the page has it, `help_table.js`: from the tables of the prompt, with the types of docs/LANGUAGE.md.

`scripts/check_page` compares what the page answers to `:help` with what the prompt answers, name by name.
"""
import json
import re
from pathlib import Path

TOP = Path(__file__).resolve().parent.parent
SOURCES = TOP / "crates" / "nesl_prompt" / "src"
WORDS = TOP / "crates" / "nesl_lex" / "src" / "scan.rt"
HEAD = "/** Functions, the help on forms, and reserved words, by scripts/page_files from the tables of the prompt. */\n"
CLASSES = ("number", "ordinal", "logical")
# Types that docs/LANGUAGE.md writes in words.
IN_WORDS = {"[a] and int to a": "([a], int) -> a", "ints to [int]": "(int, int) -> [int]"}


def types():
    """The type of each row, by how the row is called."""
    page = (TOP / "docs" / "LANGUAGE.md").read_text(encoding="utf-8")
    rows = re.findall(r"^\| (`[^|]*?)(?: R)? \| ([^|]*) \|", page, re.M)
    return {called: type_of(told) for called, told in rows}


def type_of(told):
    told = IN_WORDS.get(told, told)
    kind, comma, name = told.rpartition(", ")
    return f"{kind} :: (a in {name})" if comma and name in CLASSES else told


def rows():
    """Each row of the prompt's tables: names, how they are called, what they evaluate to, lengths, and the type."""
    text = (SOURCES / "rows.rt").read_text(encoding="utf-8")
    known = types()
    for table in re.findall(r'pub const (?:SCALARS|SEQUENCES): &str = "\\\n(.*?)\n";', text, re.S):
        for row in table.split("\n"):
            names, called, what, lengths = row.split("|")
            yield [names, called, what, lengths, known[called]]


def forms():
    """The help on each form that isn't a function."""
    text = (SOURCES / "help.rt").read_text(encoding="utf-8")
    consts = {name: body for name, body in re.findall(r'const (\w+): &\[u8\] =\s*b"\\?\n?(.*?)";', text, re.S)}
    table = text.split("const FORMS")[1].split("];")[0]
    for name, literal, const in re.findall(r'\(\s*b"(\w+|\{)",\s*(?:b"\\?\n?(.*?)"|(\w+)),?\s*\)', table, re.S):
        yield name, (literal or consts[const]).replace("\\n", "\n").strip("\n")


def words():
    """The reserved words."""
    text = WORDS.read_text(encoding="utf-8")
    return sorted({word.lower() for word in re.findall(r"Some\(Word::(\w+)\)", text)})


def help_table():
    """The text of the file."""
    table = ",\n  ".join(json.dumps(row, ensure_ascii=False) for row in rows())
    rest = {"FORMS": dict(forms()), "WORDS": words()}
    lines = [f"export const {name} = {json.dumps(part, ensure_ascii=False)};\n" for name, part in rest.items()]
    return f"{HEAD}export const ROWS = [\n  {table},\n];\n" + "".join(lines)


if __name__ == "__main__":
    print(help_table(), end="")
