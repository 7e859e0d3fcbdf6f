"""Submissions that are graded, for scripts/test."""
import csv
import html
import html.parser
import io
import json
import os
import shutil
import subprocess
import tempfile
import time
import xml.etree.ElementTree as trees
from pathlib import Path

from kept import Kept
from lib import TOP, demand, short

GRADED = {}
EXERCISES = TOP / "lessons" / "exercises"
LESSON = TOP / "lessons" / "13-two-algorithms.md"
SECONDS, MOST_SECONDS, CLASS = 50, 2, 200
HOSTILE_TEST = """ "]]></pre><script>,&'" => "<b>--><!--" """
TAGS = set("html head meta style title body h1 h2 p a table tr th td code pre mark svg path polyline text details "
           "summary".split())
SORTS = b"""% sorts by a pivot %
function qs(v) =
  if #v < 2 then v
  else
    let pivot = v[#v / 2];
        less = {a in v | a < pivot};
        same = {a in v | a == pivot};
        more = {a in v | a > pivot};

        sorted = {qs(side) : side in [less, more]}
    in sorted[0] ++ same ++ sorted[1]"""
SLOW = b"""function qs(v) = if #v < 2 then v else let p = v[0] in \
qs({a in v | a < p}) ++ {a in v | a == p} ++ qs({a in v | a > p});"""
BOUNDS = """```given
function down(v) = reverse(index(#v));
```

```limits
line_work 3000000
```

```tests
for n in 2, 4, 8 .. 16: qs(down(index(n))) work <= 30 * n * bits(n)
for n in 1, 3 .. 9: #qs(index(n)) depth <= 10 * bits(n) + 12
for n in 490, 491 .. 492: fall(n) depth <= n
for n in 1, 2 .. 3: qs(index(n)) work <= 0
```

```hidden
for n in 2, 4 .. 8: #qs([n, 4321]) work <= 0
```
"""
TESTS = """# Twice

```given
one = 1;
```

```tests
twice(3) => 6
twice(one) => 2 : int
twice("a") is error type
without sum
points 2
for n in 1, 2, 4 .. 64: twice(n) work <= 10
```

```hidden
twice(-7) => -14
```

```solution
function twice(n) = 2 * n;
```
"""


def check(name):
    def add(function):
        GRADED[name] = function
        return function
    return add


def graded(program, *words, status=0, folder=None):
    """What `grade` writes with these words, which has to end with this status."""
    run = subprocess.run([program, "grade", *map(str, words)], capture_output=True, cwd=folder, timeout=SECONDS,
                         check=False)
    demand(run.returncode == status,
           f"grade {' '.join(map(str, words))} ends with {run.returncode} and {short(run.stderr.decode('latin-1'))}")
    return run.stdout, run.stderr


def class_of(folder, texts):
    """Files with these texts, in a folder of their own, and an exercise beside it."""
    exercise, place = Path(folder, "twice.md"), Path(folder, "class")
    exercise.write_text(TESTS)
    place.mkdir()
    for name, text in texts.items():
        (place / name).write_bytes(text)
    return exercise, place


class Seen(html.parser.HTMLParser):
    """The tags of a page."""

    def __init__(self, text):
        super().__init__()
        self.tags = []
        self.feed(text)

    def handle_starttag(self, tag, attrs):
        self.tags.append(tag)


@check("the exercises of the lessons")
def exercises(program):
    """The solution of each has all its points, and nothing has few."""
    with tempfile.TemporaryDirectory() as folder:
        nothing = Path(folder, "nothing.nesl")
        nothing.write_bytes(b"% nothing %\n")
        paths = sorted(EXERCISES.glob("*.md"))
        demand(len(paths) >= 3, f"there are {len(paths)} exercises")
        for path in [*paths, LESSON]:
            told = json.loads(graded(program, "--json", "--try", path, nothing)[0])
            points = {one["submission"]: (one["points"], one["most"]) for one in told}
            got, most = points["solution"]
            demand(got == most and most >= 5, f"{path.name}: the solution has {got} of {most}")
            demand(points[str(nothing)][0] * 2 < most, f"{path.name}: nothing has {points[str(nothing)][0]} points")


@check("the commands of the guide")
def guide(program):
    """The five commands with which the guide begins are run as they are printed, and print what it shows."""
    text = (TOP / "docs" / "GRADING.md").read_text(encoding="utf-8")
    commands, printed = (text.split(f"\n```{kind}\n")[1].split("\n```\n")[0] + "\n" for kind in ("sh", "text"))
    with tempfile.TemporaryDirectory() as folder:
        os.mkdir(Path(folder, "bin"))
        os.symlink(os.path.abspath(program), Path(folder, "bin", "pazkindu"))
        os.mkdir(Path(folder, "new"))
        words = {"PATH": f"{folder}/bin:{os.environ['PATH']}", "PAZKINDU": str(TOP)}
        run = subprocess.run(["bash", "-ec", commands], capture_output=True, cwd=Path(folder, "new"), timeout=SECONDS,
                             env=os.environ | words, check=False)
        demand(commands.count("\n") == 5 and run.returncode == 0, f"they end with {short(run.stderr.decode())}")
        said = "solution  13 of 13\n" + printed
        demand(run.stdout.decode() == said, f"expected {short(said)}, and there is {short(run.stdout.decode())}")
        demand(Path(folder, "new", "pages", "index.html").exists(), "there is no page of the class")


@check("a submission over several lines")
def several_lines(program):
    """Comments, a blank line and a missing `;` change nothing. A bound names the first number and the cost there."""
    slow = b"function qs(v) = if #v == 0 then v else let m = min_val(v) in [m] ++ qs({a in v | a /= m});"
    with tempfile.TemporaryDirectory() as folder:
        for name, text in {"good": SORTS, "slow": slow}.items():
            Path(folder, name).write_bytes(text)
        exercise = EXERCISES / "quicksort.md"
        table = graded(program, exercise, "good", "slow", folder=folder)[0].decode()
        good, bad = table.splitlines()
        demand(good == "good  13 of 13", f"the table has {short(good)}")
        demand(bad.startswith("slow  ") and "of 13  line " in bad, f"the table has {short(bad)}")
        rows = list(csv.DictReader(io.StringIO(graded(program, "--csv", exercise, "slow", folder=folder)[0].decode())))
        over = [row for row in rows if row["outcome"] == "over"]
        demand(all(int(row["cost"]) > int(row["bound"]) for row in over) and over, f"CSV has {short(str(rows))}")


@check("reports")
def reports(program):
    """Each has the same outcomes, and is read by a reader of its own. What is hidden isn't on a student's page."""
    with tempfile.TemporaryDirectory() as folder:
        exercise, place = class_of(folder, {"ann": b"function twice(n) = n + n", "bob": b"function twice(n) = 7;"})
        pages = Path(folder, "pages")
        rows = list(csv.DictReader(io.StringIO(graded(program, "--csv", exercise, place)[0].decode())))
        told = json.loads(graded(program, "--json", "--jobs", "2", exercise, place)[0])
        flat = [(one["submission"], test["line"], test["outcome"]) for one in told for test in one["tests"]]
        demand([(row["submission"], int(row["line"]), row["outcome"]) for row in rows] == flat, "CSV and JSON differ")
        demand([(one["points"], one["most"]) for one in told] == [(8, 8), (3, 8)], f"JSON has {short(str(told))}")
        xml = graded(program, "--junit", exercise, place)[0]
        suites = trees.fromstring(xml).findall("testsuite")
        demand([int(suite.get("failures")) for suite in suites] == [0, 4], f"XML has {short(xml.decode())}")
        graded(program, "--html", pages, exercise, place)
        demand(sorted(path.name for path in pages.iterdir()) == ["1.html", "2.html", "index.html"], "pages are missing")
        student = (pages / "2.html").read_text()
        seen = Seen(student).tags
        demand("script" not in seen and seen.count("polyline") == 2 and "-7" not in student,
               f"a student's page has {short(str(seen))}")
        if shutil.which("xmllint"):
            for path in pages.iterdir():
                lint = subprocess.run(["xmllint", "--noout", "--nonet", path], capture_output=True, check=False)
                demand(lint.returncode == 0, f"xmllint: {short(lint.stderr.decode())}")
            lint = subprocess.run(["xmllint", "--noout", "-"], input=xml, capture_output=True, check=False)
            demand(lint.returncode == 0, f"xmllint: {short(lint.stderr.decode())}")
        graded(program, "--html", pages, exercise, place, status=1)


@check("kept sessions are graded")
def kept_sessions(program):
    """Their lines are the submissions, without the head and what a crash left. Nothing else in the folder is graded."""
    with tempfile.TemporaryDirectory() as folder:
        exercise, place = class_of(folder, {"file": b"function twice(n) = n + n;"})
        sessions = Path(folder, "sessions")
        sessions.mkdir()
        good, half = [b"function twice(n) = \\", b"2 * n;", b"twice(4);"], [b"function twice(n) = 7;", b"1 / 0;"]
        files = {"ann": Kept(lines=good).bytes(), "bob": Kept(base=5, lines=half).bytes(), "cy": b"", "dan": b".",
                 "eve": Kept(lines=good).bytes()[:-1] + b">function twice(n) = 9;", "far": b">something else\n.",
                 "gus": b"function twice(n) = 2 * n;", ".lock": b"", "x.new": Kept(lines=good).bytes(), "Zed": b"?"}
        for name, data in files.items():
            (sessions / name).write_bytes(data)
        os.symlink(sessions / "ann", sessions / "link")
        before = {path.name: path.read_bytes() for path in sessions.iterdir()}
        out, errors = graded(program, "--json", "--kept", sessions, exercise, place, status=1)
        told = {one["submission"].rsplit("/", 1)[-1]: one["points"] for one in json.loads(out)}
        demand(told == {"file": 8, "ann": 8, "bob": 3, "cy": 1, "dan": 1, "eve": 8}, f"the points are {told}")
        for complaint in (b"far: it is no kept session", b"gus: it is no kept session", b"link: it is a link"):
            demand(complaint in errors, f"grade reports {errors}")
        demand(before == {path.name: path.read_bytes() for path in sessions.iterdir()}, "the folder changed")
        for name in ("far", "gus", "link"):
            (sessions / name).unlink()
        graded(program, "--kept", sessions, "--html", Path(folder, "pages"), exercise)
        page = Path(folder, "pages", "2.html").read_text()
        demand("<h1>bob</h1>" in page and "1 / 0;" in page, f"a page has {short(page)}")
        errors = graded(program, "--kept", Path(folder, "none"), exercise, status=1)[1]
        demand(b"none: there is no such folder" in errors, f"grade reports {errors}")


@check("hints on pages")
def hinted(program):
    """The page has each refused form with a hint, and one on the line of a test. A hidden test has none."""
    with tempfile.TemporaryDirectory() as folder:
        texts = {"ann": b"function twice(n) = n + n;\n", "bob": b"function twise(n) = 2 * (n;\n",
                 "cy": b"function twice(n) = lenght(n);\nx = <b>;\n" + b"y = ;\n" * 50}
        exercise, place = class_of(folder, texts)
        graded(program, "--html", Path(folder, "pages"), exercise, place)
        pages = [Path(folder, "pages", f"{number}.html").read_text() for number in (1, 2, 3)]
        hints = [page.count('<p class="hint">') for page in pages]
        forms = [page.count('<pre class="refused">') for page in pages]
        marks = [page.count("<mark>") for page in pages]
        demand(hints[0] == forms[0] == 0 and forms[1] == 1 and forms[2] == 20, f"the pages have {forms} refused forms")
        demand(hints[1] >= 4 and marks[1] == 1 and marks[2] == 20, f"the pages have {hints} hints and {marks} marks")
        demand("twice(-7)" not in pages[1], "a page has a hidden test")
        hint = pages[2].split("Errors in the submission")[1].split('<p class="hint">')[1].split("</p>")[0]
        demand(hint.strip() and "<b>" not in pages[2], f"a page has the hint {hint}")


def accounts_in(page):
    """The lines of each account of a page."""
    return [html.unescape(part.split("</pre>")[0]).split("\n")[:-1]
            for part in page.split('<pre class="account">')[1:]]


def judge_account(lines, measure, cost):
    """The first line and the row of all nodes have the cost that is graded. No line is wider than the prompt's."""
    head = lines[0].replace(",", "").split()
    whole = next(line.split() for line in lines if line.split()[:1] == ["all"])
    demand([head[1], head[3]] == [whole[2], whole[4]], f"the account begins with {lines[0]} and has {whole}")
    demand(head[head.index(measure) + 1] == cost, f"the account has {lines[0]}, and {measure} {cost} is graded")
    demand(all(len(line) <= 80 and line.isascii() for line in lines), "a line of an account is wide")


@check("accounts of costs above their bounds")
def accounts(program):
    """A page has the prompt's account at the first n whose cost is above a bound. A hidden test has none."""
    falls = b"function fall(n) = if n == 0 then 0 else fall(n - 1);\n"
    with tempfile.TemporaryDirectory() as folder:
        exercise, place = class_of(folder, {"ann": SORTS, "bob": SLOW + b"\n" + falls, "cy": b"qs = 1;"})
        exercise.write_text(BOUNDS)
        graded(program, "--jobs", "3", "--html", Path(folder, "pages"), exercise, place)
        pages = [Path(folder, "pages", f"{number}.html").read_text() for number in (1, 2, 3)]
        demand(all("4321" not in page and page.count("<details>") <= 3 for page in pages), "a hidden test is shown")
        demand(not accounts_in(pages[2]), "there is an account of a fault")
        rows = list(csv.DictReader(io.StringIO(graded(program, "--csv", exercise, place / "bob")[0].decode())))
        demand([row["outcome"] for row in rows] == ["over"] * 5, f"CSV has {short(str(rows))}")
        told = accounts_in(pages[1])
        demand(len(told) == 3, f"the page has {len(told)} accounts")
        for lines, measure, row in zip(told, ("work", "depth", "depth"), rows):
            judge_account(lines, measure, row["cost"])
            demand(f"n = {row['n']} comes from" in pages[1], f"no account is at n = {row['n']}")
        line = b":cost qs(down(index(%s)))\n" % rows[0]["n"].encode()
        said = b"function down(v) = reverse(index(#v));\n" + SLOW + b"\n" + line
        run = subprocess.run([program, "repl"], input=said, capture_output=True, timeout=SECONDS, check=False)
        prompt = run.stdout.decode()
        demand("\n".join(told[0]) in prompt, f"the prompt has {short(prompt)}")
        demand(any("a < p" in line for line in told[0]) and "a < p" not in pages[1], "an account isn't escaped")


@check("accounts in odd sessions")
def odd_accounts(program):
    """A session may have a part of a form, names bound anew, or a cost above that of the largest account."""
    large = b"function qs(v) = if #v == 1 then v else {sum(index(600000)) * 0 + a : a in v};\n"
    with tempfile.TemporaryDirectory() as folder:
        texts = {"ann": large, "bob": b":reset\n" + SLOW, "cy": b"</pre><b>; function qs(`\xff) = \"</details>\";"}
        exercise, place = class_of(folder, texts)
        exercise.write_text(BOUNDS)
        sessions = Path(folder, "sessions")
        sessions.mkdir()
        (sessions / "dan").write_bytes(Kept(lines=[SLOW.replace(b"\\\n", b""), b"0 * \\"]).bytes())
        graded(program, "--html", Path(folder, "pages"), "--kept", sessions, exercise, place)
        pages = [Path(folder, "pages", f"{number}.html").read_text() for number in (1, 2, 3, 4)]
        demand(all(set(Seen(page).tags) <= TAGS for page in pages), "a page has other tags")
        demand(accounts_in(pages[0])[0][0].startswith("work above 1000000"), f"the page has {short(pages[0])}")
        told = json.loads(graded(program, "--json", "--kept", sessions, exercise)[0])[0]["tests"]
        lines = accounts_in(pages[3])[0]
        judge_account(lines, "depth", str(told[1]["cost"]))
        demand(any("0 *  #qs(" in line for line in lines), f"the page has {short(str(lines))}")


@check("features")
def features(program):
    """A name, a word or a sign that a submission has to have, or must not have, is one of its tokens."""
    tests = {"without rep": 1, "with rep": 0, "without if": 0, "with IF": 1, "without ++": 0, "with <-": 0, "with {": 1,
             "without {": 0, "with twice": 1, "without 'n": None, "with ..": None}
    text = b"% rep <- %\nfunction twice(v) = if #v == 0 then v ++ v else {a + a : a in v}; \"rep <-\";"
    with tempfile.TemporaryDirectory() as folder:
        exercise, place = class_of(folder, {"ann": text})
        for line, points in tests.items():
            exercise.write_text(f"```tests\n{line}\n```\n")
            out, errors = graded(program, "--json", exercise, place, status=1 if points is None else 0)
            told = json.loads(out)[0]["points"] if out else None
            demand(told == points and (out or b"expected one name" in errors), f"{line}: {out} {errors}")


def hostile():
    """Submissions that try to get at something, or to break a report."""
    texts = {"binary": bytes(range(256)) * 64, "zeros": bytes(5000), "endless": b"function twice(n) = twice(n + 1);",
             "deep": b"(" * 40000, "braces": b"{" * 3000, "open text": b'x = "', "open comment": b"% open",
             "long": b"1" * 300000, "many": b"1;\n" * 20000, "reset": b":reset\n:reset\n", "budget": b":budget;\n",
             "large": b"a = index(99999);" * 50, "bom": b"\xef\xbb\xbffunction twice(n) = 2 * n;",
             "crlf": b"function twice(n) =\r\n  2 * n\r\n", "parts": b"function twice(n) = \\\n2 * n;\n\\\n\\\n",
             "nothing": b"", "semicolons": b";" * 5000, "takes n": b"n = 3; one = 5; function twice(a) = a + a;",
             "takes one": b"one = 100;\nfunction twice(a) = 2 * a;", "surrogate": b"\xed\xa0\x80", "nul": b"\0",
             "slow": b"function twice(n) = if n < 1 then 0 else 2 + twice(n - 1);",
             "marked": b"function twice(n) = let s = \"</pre><script>\" in 2 * n + 0 * #s;"}
    lines = [":save /etc/passwd", ":save x", ":load /etc/passwd", ":quit", ":help", ":hints", "user teacher", "user a KEY",
             "</pre><script>alert(1)</script>", "]]>", "<!--", "--><b>", "&lt;", "\"", "'", "\\", "\x1b[2J", "\x9b2J",
             "```", "```tests", "points 1000", "twice(3) => 7", "=cmd", "+1", "@sum", "a,b,\"c\"", "%s%n", "{{7*7}}",
             "../../x", "$(id)", "`id`", "\u202e", "\u2028", "\ufffe", "fault type (work 0)", "it = 6 : int (work 3, depth 3)"]
    for number, line in enumerate(lines):
        texts[f"line {number}"] = line.encode() + b"\nfunction twice(n) = 2 * n;\n"
    for number, name in enumerate(["a<b>&\"'", "a,b", "-rf", "=1+1", "\u202egnp", "a\x1b[1m"]):
        texts[name] = b"function twice(n) = %d * n;" % number
    return texts


@check("60 hostile submissions")
def hostile_submissions(program):
    """All are graded. None changes a file, another one's grade, or the layout of a report."""
    texts = hostile()
    demand(len(texts) >= 60, f"there are {len(texts)}")
    with tempfile.TemporaryDirectory() as folder:
        exercise, place = class_of(folder, texts | {"zz": b"function twice(n) = 2 * n;"})
        exercise.write_text(TESTS.replace("points 2", HOSTILE_TEST + "\npoints 2"))
        before = sorted(os.listdir(place))
        told = json.loads(graded(program, "--json", exercise, place, folder=folder)[0])
        demand(len(told) == len(texts) + 1, f"{len(told)} of {len(texts) + 1} are graded")
        points = {one["submission"].rsplit("/", 1)[1]: one["points"] for one in told}
        demand(points["zz"] == 8 and points["crlf"] == 8 and points["endless"] < 8 and points["takes one"] < 8,
               f"the points are {points}")
        rows = list(csv.reader(io.StringIO(graded(program, "--csv", exercise, place)[0].decode(), newline="")))
        demand({len(row) for row in rows} == {10}, "a row of CSV has other cells")
        demand(len(rows) == 1 + 7 * len(told), f"CSV has {len(rows)} rows")
        suites = trees.fromstring(graded(program, "--junit", exercise, place)[0]).findall("testsuite")
        demand([len(suite.findall("testcase")) for suite in suites] == [7] * len(told), "XML has other cases")
        table = graded(program, exercise, place)[0]
        lines = table.count(b"\n")
        demand(lines == len(told) and b"\x1b" not in table, f"the table has {lines} lines")
        graded(program, "--html", Path(folder, "pages"), exercise, place)
        for page in Path(folder, "pages").iterdir():
            demand(set(Seen(page.read_text()).tags) <= TAGS, f"{page.name} has {Seen(page.read_text()).tags}")
        demand(sorted(os.listdir(place)) == before and not Path(folder, "x").exists(), "a file was written")


@check("a class of 200 submissions")
def whole_class(program):
    """They are graded within 2 seconds by four threads, and as one thread does it."""
    with tempfile.TemporaryDirectory() as folder:
        for number in range(CLASS):
            Path(folder, f"{number:03}.nesl").write_bytes(SORTS + b" %% %d %%" % number)
        began = time.monotonic()
        by_four = graded(program, "--jobs", "4", "--csv", EXERCISES / "quicksort.md", folder)[0]
        seconds = time.monotonic() - began
        demand(by_four == graded(program, "--csv", EXERCISES / "quicksort.md", folder)[0], "threads differ")
        processors = len(os.sched_getaffinity(0))
        demand(processors < 4 or seconds < MOST_SECONDS or os.getloadavg()[0] > 1, f"it took {seconds:.1f} s")
        return f"{seconds:.2f} s on {processors} processors"


@check("what can't be graded")
def refused(program):
    """What is wrong with an exercise or a file is reported, with a line or a path. Others are graded nevertheless."""
    with tempfile.TemporaryDirectory() as folder:
        exercise, place = class_of(folder, {"ann": b"function twice(n) = 2 * n;", "big": b"%" * 1048577})
        out, errors = graded(program, exercise, place, status=1)
        demand(b"8 of 8" in out and b"big: it has more than 1048576 bytes" in errors, f"grade reports {errors}")
        out, errors = graded(program, exercise, place / "none", status=1)
        demand(out == b"" and b"none: there is no such file" in errors, f"grade reports {errors}")
        demand(b"no submission" in graded(program, exercise, status=2)[1], "no submission isn't refused")
        for text, complaint in {"# Nothing\n": "it has no tests", "```tests\n1 => 1\n": "that ends the block",
                                "```tests\n1 => 1\n```\n```given\nx = ;\n```\n": "x = ; gets fault syntax"}.items():
            exercise.write_text(text)
            errors = graded(program, exercise, place, status=1)[1].decode()
            demand("twice.md: " in errors and complaint in errors, f"{text}: {short(errors)}")
        exercise.write_text("```tests\n1 => 1\n```\n")
        demand(b"it has no solution" in graded(program, "--try", exercise, status=1)[1], "--try needs no solution")
        for line, complaint in {"twice(3)": "expected `EXPR => EXPR`", "for n in 1, 2: n work <= 1": "`A, B .. C`",
                                "for n in 1, 2 .. 3: n work <= 1 +": "a bound of n", "points x": "a whole number",
                                "n is error wrong": "the name of a fault", "with a b": "one name"}.items():
            exercise.write_text(f"```tests\n{line}\n```\n")
            errors = graded(program, exercise, place, status=1)[1].decode()
            demand("twice.md: line 2: expected " in errors and complaint in errors, f"{line}: {short(errors)}")
        exercise.write_text("```tests\nfor n in 1, 2 .. 9: n work <= 2 ^ 200\n```\n")
        row = list(csv.DictReader(io.StringIO(graded(program, "--csv", exercise, place / "ann")[0].decode())))[0]
        demand((row["outcome"], row["got"]) == ("unbounded", "the bound has more than 128 bits"), f"CSV has {row}")
