"""The pages of a grading in a browser, for scripts/check_page."""
import itertools
import subprocess
import tempfile
from pathlib import Path

from browsed import CONTRAST, TOP, Tab
from lib import demand, judge

EXERCISE = Path(TOP, "lessons", "exercises", "quicksort.md")
SUBMISSIONS = {
    # Its work and its depth are above the bounds.
    "ann": "function qs(v) = if #v < 2 then v else let p = v[0] in\n"
           "qs({a in v | a < p}) ++ {a in v | a == p} ++ qs({a in v | a > p});\n",
    "bob": "function qs(v) = if #v < 2 then v else lenght(v);\nx = (1;\n"}
PAGES = ["index", "1", "2"]
WIDTHS = (1280, 360)


def graded(program, folder):
    """The folder with the pages of a class."""
    for name, text in SUBMISSIONS.items():
        Path(folder, name).write_text(text, encoding="utf-8")
    pages = Path(folder, "pages")
    subprocess.run([program, "grade", "--html", pages, EXERCISE, *(Path(folder, name) for name in SUBMISSIONS)],
                   stdout=subprocess.DEVNULL, check=True)
    return pages


def looked_at(tab, name, wrong):
    """Opens the accounts of a page, and adds what is too wide or hard to read."""
    folded = tab.run("return document.querySelectorAll('pre.account').length")
    demand(folded == (2 if name == "1" else 0), f"{name} has {folded} accounts")
    demand(not any(one.is_displayed() for one in tab.all("pre.account")), f"an account of {name} isn't folded")
    for one in tab.all("summary"):
        one.click()
    demand(all(one.is_displayed() for one in tab.all("pre.account")), f"an account of {name} isn't shown")
    for width, dark in itertools.product(WIDTHS, (False, True)):
        tab.resize(width, 900, dark)
        wide = tab.run("return document.documentElement.scrollWidth")
        at = f"{name}, {width}, {'dark' if dark else 'light'}"
        wrong += [f"{at}: it is {wide} pixels wide"] * (wide > width)
        wrong += [f"{at}: {one}" for one in tab.run(CONTRAST) if one["ratio"] < one["least"]]


def grades(place):
    """An account is folded until its summary is clicked. No page is wider than its window, or hard to read."""
    wrong = []
    with tempfile.TemporaryDirectory() as folder:
        pages = graded(place.program, folder)
        for name in PAGES:
            with Tab(place.driver, f"file://{pages}/{name}.html") as tab:
                looked_at(tab, name, wrong)
                place.picture(tab, f"grades-{name}", whole=True)
    judge(wrong)
