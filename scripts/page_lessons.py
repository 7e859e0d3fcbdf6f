"""The lessons as the page asks for them, in JSON: `lessons.json`, from lessons/*.md.

A lesson there has its title, what lessons/README.md says it is about, and its parts in order. Each part is a list: its
kind, and what it has.

    ["h", "What it costs"]          a heading
    ["p", "A text with `code`."]    a paragraph, in which `..` is code and *..* is emphasis
    ["list", ["..", ".."]]          a list of such texts
    ["table", [["..", ".."], ..]]   rows of such texts, the first being the head
    ["code", "work  2n + 3"]        lines that aren't sent
    ["say", [["1 + 1;", "it = 2 : int (work 3, depth 3)"], ..]]
                                    a block: forms, each with its reply; the parts of a form have line breaks between
    ["exercise", {..}]              an exercise: its name, what is given, its visible tests, a solution

The exercises of lessons/exercises/ come after the lessons, each as one with this last part. A lesson may have one, too,
in a block `exercise` with a fence that is longer than those in it. Hidden tests aren't written.
"""
import json
import re
from pathlib import Path

TOP = Path(__file__).resolve().parent.parent


def pairs_of(lines):
    """The forms of a block of examples, each with its reply. What is answered before a form's last part is left out."""
    pairs = []
    for line in lines[1:-1]:
        if line.startswith("> ") and pairs and pairs[-1][0].endswith("\\"):
            pairs[-1] = [pairs[-1][0][:-1] + "\n" + line[2:], ""]
        elif line.startswith("> "):
            pairs.append([line[2:], ""])
        elif pairs:
            pairs[-1][1] += ("\n" if pairs[-1][1] else "") + line
    return pairs


def fence_of(line):
    """The number of backquotes at the front of a line, if they begin or end a block."""
    ticks = len(line) - len(line.lstrip("`"))
    return ticks if ticks >= 3 else 0


def exercise_of(name, lines):
    """An exercise, from the lines of its Markdown: texts, and what the page has to know."""
    blocks, texts, fence, info = {"given": [], "tests": [], "solution": []}, [], 0, ""
    for line in lines:
        ticks, word = fence_of(line), line.lstrip("`").strip()
        if not fence and ticks:
            fence, info = ticks, word
        elif fence and ticks >= fence and not word:
            fence = 0
        elif fence:
            blocks.get(info, []).append(line)
        else:
            texts.append(line)
    told = {"name": name, **{word: "\n".join(rows) for word, rows in blocks.items()}, "tests": blocks["tests"]}
    return [part_of(group) for group in groups_of(texts)] + [["exercise", told]]


def joined(lines):
    """A text without what the page doesn't show: lines that end in a backslash, and the answer to them."""
    text = " ".join(line.strip() for line in lines)
    return re.sub(r" ?[^.]*`(?:\\|more)`[^.]*\.", "", text)


def row_of(line):
    return [cell.strip().replace("\\|", "|") for cell in re.split(r"(?<!\\)\|", line.strip()[1:-1])]


def part_of(lines):
    """A group of lines without an empty one between them, as a part of the lesson."""
    first = lines[0]
    if first.startswith("#"):
        return ["h", first.lstrip("# ")]
    if fence_of(first):
        return ["say", pairs_of(lines)]
    if first.startswith("    "):
        return ["code", "\n".join(line[4:] for line in lines)]
    if first.startswith("|"):
        return ["table", [row_of(line) for line in lines if not re.fullmatch(r"[|\- ]+", line)]]
    if first.startswith("- "):
        return ["list", [joined(item.split("\n")) for item in "\n".join(lines)[2:].split("\n- ")]]
    return ["p", joined(lines)]


def groups_of(lines):
    """Lines that belong together: an empty line lies between two groups, but none within a block."""
    group, fence = [], 0
    for line in lines:
        ticks = fence_of(line)
        if not fence and ticks and group:
            yield group
            group = []
        is_end = fence and ticks >= fence
        fence = 0 if is_end else fence or ticks
        if line or fence:
            group.append(line)
        if group and (is_end or group[0].startswith("#") or not line and not fence):
            yield group
            group = []
    if group:
        yield group


def parts_of(title, lines):
    """The parts of a lesson."""
    for group in groups_of(lines):
        if group[0].lstrip("`") == "exercise":
            yield from exercise_of(title, group[1:-1])
        else:
            yield part_of(group)


def lesson(path, about):
    title, *lines = path.read_text(encoding="utf-8").split("\n")
    title = re.sub(r"# \d+\. |`", "", title)
    return {"title": title, "about": about, "parts": list(parts_of(title, lines))}


def exercise(path):
    title, *lines = path.read_text(encoding="utf-8").split("\n")
    title = re.sub(r"# |`", "", title)
    return {"title": title, "about": "an exercise with tests", "parts": exercise_of(title, lines)}


def lessons_json():
    """The text of the file."""
    index = (TOP / "lessons" / "README.md").read_text(encoding="utf-8")
    rows = re.findall(r"^\d+\. \[[^]]*\]\(([^)]*)\): (.*)$", index, re.M)
    lessons = [lesson(TOP / "lessons" / name, about) for name, about in rows]
    lessons += [exercise(path) for path in sorted((TOP / "lessons" / "exercises").glob("*.md"))]
    texts = [json.dumps(one, ensure_ascii=False) for one in lessons]
    return "[\n" + ",\n".join(texts).replace('], ["', '],\n["') + "\n]\n"
