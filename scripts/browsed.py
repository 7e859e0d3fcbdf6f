"""The page in a browser, as scripts/check_page sees it: what serves it, the wire to it, the browser, and a tab.

What isn't installed is reported once, with how to install it. A tab fails by `Failed`, as the tests of the program do.
"""
import os
import select
import socket
import subprocess
import sys
import threading
import time

from lib import PATIENCE, Failed, demand, short

try:
    from selenium import webdriver
    from selenium.common.exceptions import WebDriverException
    from selenium.webdriver.chrome.options import Options
    from selenium.webdriver.chrome.service import Service as Driver
    from selenium.webdriver.common.action_chains import ActionChains
    from selenium.webdriver.common.by import By
    from selenium.webdriver.common.keys import Keys
except ImportError:
    sys.exit("selenium is missing for this Python: apt-get install chromium chromium-driver python3-selenium, "
             "and call this script by /usr/bin/python3")

HERE = os.path.dirname(os.path.abspath(__file__))
TOP = os.path.dirname(HERE)
CHROMIUM, DRIVER = "/usr/bin/chromium", "/usr/bin/chromedriver"
CELL = """
const cell = document.querySelector("#cells > li:last-child");
if (!cell) return null;
const text = (part) => cell.querySelector(part)?.textContent ?? null;
const facts = [...cell.querySelectorAll(".facts > div")].map((row) => [...row.children].map((one) => one.textContent));
return {count: cell.parentElement.children.length, form: text("pre"), mark: text("mark"), value: text(".value"),
        wrong: text(".told p"), raw: text(".raw code"), own: text(".own"), soft: text(".reply p.soft"),
        facts: Object.fromEntries(facts)};
"""
SETTLED = """
const done = arguments[1];
import(arguments[0]).then(async ({ session }) => {
  let turn;
  do {
    turn = session.turn;
    await turn;
    await new Promise((wake) => setTimeout(wake, 250));
  } while (turn !== session.turn);
  done();
});
"""
# Each thing that is seen, with the contrast that it has and the least that it may have.
CONTRAST = """
const numbers = (colour) => [...colour.match(/[\\d.]+/g).map(Number), 1].slice(0, 4);
const over = ([r, g, b, a], back) => [r, g, b].map((part, at) => part * a + back[at] * (1 - a));
const behind = (one) => {
  if (!one) return [255, 255, 255];
  const own = numbers(getComputedStyle(one).backgroundColor);
  return own[3] === 1 ? own.slice(0, 3) : over(own, behind(one.parentElement));
};
const bright = (colour) => colour.map((part) => part / 255)
  .map((part) => (part <= 0.04045 ? part / 12.92 : ((part + 0.055) / 1.055) ** 2.4))
  .reduce((sum, part, at) => sum + part * [0.2126, 0.7152, 0.0722][at], 0);
const ratio = (one, other) => {
  const [low, high] = [bright(one), bright(other)].sort((a, b) => a - b);
  return (high + 0.05) / (low + 0.05);
};
const accent = getComputedStyle(document.documentElement).getPropertyValue("--accent").trim();
const told = [];
const tell = (one, what, colour, back, least) => told.push({
  what: `${what} of ${one.tagName.toLowerCase()} ${one.id || one.className.baseVal || one.className}`.trim(),
  ratio: ratio(over(numbers(colour), back), back), least,
});
for (const one of document.body.querySelectorAll("*")) {
  const style = getComputedStyle(one);
  if (!one.checkVisibility() || one.closest(".unseen, .skip, title")) continue;
  const texts = [...one.childNodes].some((part) => part.nodeType === 3 && part.data.trim()) || one.value;
  const isPainted = one.closest(".sheet > textarea");
  if (texts && !isPainted) tell(one, "text", one.closest("svg") ? style.fill : style.color, behind(one), 4.5);
  if (one.placeholder) tell(one, "placeholder", getComputedStyle(one, "::placeholder").color, behind(one), 4.5);
  if (one.matches("input:not([type=checkbox]), textarea, button:not(.quiet, .main)")) {
    tell(one, "edge", style.borderTopColor, behind(one.parentElement), 3);
  }
  if (one.matches("button.main, .filled, .light:not(.out)")) {
    tell(one, "area", style.backgroundColor, behind(one.parentElement), 3);
  }
  if (one.matches(".curve, .curve *")) tell(one, "line", style.stroke, behind(one.closest("figure")), 3);
  if (one.matches("mark")) tell(one, "underline", style.textDecorationColor, behind(one), 3);
  // A page without an accent has the browser's own outlines.
  if (accent && one.matches("button, a, input, textarea")) {
    tell(one, "outline", accent
      .replace(/^#(..)(..)(..)$/, (_, ...parts) => `rgb(${parts.slice(0, 3).map((part) => parseInt(part, 16))})`),
      behind(one.parentElement), 3);
  }
}
return told;
"""


class Server:
    """The program with its page, for these users, with further words."""

    def __init__(self, program, users, *more):
        words = [program, "serve", "--port", "0", "--workers", "0", "--web", "0", *more, *users]
        self.run = subprocess.Popen(words, stdout=subprocess.PIPE)
        lines = [self.run.stdout.readline().decode() for _ in range(2)]
        demand(lines[1].startswith("page at http://"), f"no page is told: {short(''.join(lines))}")
        self.host, port = lines[1].split("//")[1].strip().strip("/").split(":")
        self.port = int(port)

    def end(self):
        self.run.kill()
        self.run.wait()


class Wire:
    """A port before another: what comes is passed on both ways, until answers are held or all connections are cut."""

    def __init__(self, host, port):
        self.behind, self.pairs, self.held = (host, port), [], False
        self.listener = socket.create_server(("127.0.0.1", 0), backlog=64)
        self.address = "http://127.0.0.1:%d/" % self.listener.getsockname()[1]
        threading.Thread(target=self.accept, daemon=True).start()

    def accept(self):
        while True:
            front = self.listener.accept()[0]
            back = socket.create_connection(self.behind)
            for one in (front, back):
                one.setsockopt(socket.IPPROTO_TCP, socket.TCP_NODELAY, 1)
            self.pairs.append((front, back))
            threading.Thread(target=self.pass_on, args=(front, back), daemon=True).start()

    def pass_on(self, front, back):
        """Passes on until one side ends, and then ends the other."""
        try:
            while True:
                ready = select.select([front] if self.held else [front, back], [], [], 0.05)[0]
                for one in ready:
                    data = one.recv(65536)
                    if not data:
                        return
                    (back if one is front else front).sendall(data)
        except (OSError, ValueError):
            pass
        finally:
            front.close()
            back.close()

    def cut(self):
        """Ends all connections at once, without a farewell."""
        for pair in self.pairs:
            for one in pair:
                try:
                    one.shutdown(socket.SHUT_RDWR)
                except OSError:
                    pass
        self.pairs, self.held = [], False


def browser():
    """A browser without a window."""
    for file, package in ((CHROMIUM, "chromium"), (DRIVER, "chromium-driver")):
        if not os.path.exists(file):
            sys.exit(f"{file} is missing: apt-get install {package}")
    options = Options()
    options.binary_location = CHROMIUM
    for word in ["--headless=new", "--disable-gpu", "--hide-scrollbars"] + ["--no-sandbox"] * (os.getuid() == 0):
        options.add_argument(word)
    options.set_capability("goog:loggingPrefs", {"browser": "ALL"})
    return webdriver.Chrome(service=Driver(DRIVER), options=options)


class Tab:
    """A tab of the browser with the page in it."""

    def __init__(self, driver, address, user=None):
        self.driver, self.address = driver, address
        driver.switch_to.new_window("tab")
        self.handle = driver.current_window_handle
        self.resize(1280, 900)
        driver.get(address)
        if user:
            self.sign_in(user)

    def __enter__(self):
        return self

    def __exit__(self, kind, *_):
        try:
            self.front()
            told = [entry["message"] for entry in self.driver.get_log("browser")]
            self.driver.close()
        finally:
            self.driver.switch_to.window(self.driver.window_handles[0])
        if kind is None:
            demand(not told, f"the console has {short(told[0] if told else '')}")

    def front(self):
        self.driver.switch_to.window(self.handle)

    def resize(self, width, height, dark=False):
        feature = {"name": "prefers-color-scheme", "value": "dark" if dark else "light"}
        self.driver.execute_cdp_cmd("Emulation.setEmulatedMedia", {"features": [feature]})
        self.driver.execute_cdp_cmd("Emulation.setDeviceMetricsOverride",
                                    {"width": width, "height": height, "deviceScaleFactor": 1, "mobile": False})

    def run(self, script, *words):
        return self.driver.execute_script(script, *words)

    def module(self, file, expression):
        """What an expression over a module of the page evaluates to."""
        return self.driver.execute_async_script(
            "const done = arguments[1]; import(arguments[0]).then((page) => done(%s)).catch((no) => done(String(no)));"
            % expression, f"{self.address}{file}")

    def one(self, name):
        return self.driver.find_element(By.ID, name)

    def all(self, selector):
        return self.driver.find_elements(By.CSS_SELECTOR, selector)

    def text(self, name):
        return self.run("return document.getElementById(arguments[0]).textContent.trim()", name)

    def seen(self, name):
        return self.one(name).is_displayed()

    def focused(self):
        return self.run("const at = document.activeElement; return at.id || at.hash || at.textContent.trim()")

    def keys(self, *keys):
        ActionChains(self.driver).send_keys(*keys).perform()

    def chord(self, held, key):
        ActionChains(self.driver).key_down(held).send_keys(key).key_up(held).perform()

    def until(self, holds, what):
        """What holds answers, once it is true or has something."""
        end = time.monotonic() + PATIENCE
        while time.monotonic() < end:
            try:
                answer = holds()
                if answer:
                    return answer
            except WebDriverException:  # the page is being loaded
                pass
            time.sleep(0.03)
        raise Failed(f"it isn't so after {PATIENCE} s: {what}")

    def sign_in(self, user):
        self.until(lambda: self.seen("user"), "the page asks for a user")
        self.one("user").clear()
        self.one("user").send_keys(user, Keys.ENTER)
        self.until(lambda: self.seen("book"), f"{user} is seated")
        self.settle()

    def reload(self):
        """Loads the page again, and waits until its user is seated again."""
        self.driver.refresh()
        self.until(lambda: self.module("session.js", "page.session.seated") is True, "the user is seated again")
        self.settle()

    def settle(self):
        """Waits until nothing is sent any more: what the page wants to know it asks soon."""
        self.driver.execute_async_script(SETTLED, self.address + "session.js")

    def write(self, text):
        """Writes into the field that has the focus, with Shift-Enter for each line break."""
        for place, line in enumerate(text.split("\n")):
            if place:
                self.chord(Keys.SHIFT, Keys.ENTER)
            self.keys(line)

    def say(self, form):
        """Says a form in the notebook, and gives its cell once it was answered."""
        before = (self.cell() or {"count": 0})["count"]
        self.one("field").click()
        self.write(form)
        self.keys(Keys.ENTER)
        return self.answered(before + 1)

    def answered(self, count):
        def last():
            cell = self.cell()
            return cell if cell and cell["count"] == count and cell["soft"] != "…" else None
        return self.until(last, f"there are {count} cells, all answered")

    def cell(self):
        """The last cell."""
        return self.run(CELL)

    def go(self, view):
        self.driver.find_element(By.CSS_SELECTOR, f"nav a[href='#{view}']").click()
        self.until(lambda: self.seen(view), f"{view} is shown")

    def picture(self, path, width, height=None, dark=False):
        """A picture of the tab, as high as the page where no height is given."""
        self.resize(width, height or 900, dark)
        if not height:
            self.resize(width, self.run("return document.documentElement.scrollHeight"), dark)
        time.sleep(0.3)
        self.driver.save_screenshot(path)
        self.resize(1280, 900)
