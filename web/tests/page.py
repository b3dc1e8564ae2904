"""The page in a browser, as a test drives it."""
import json
import pathlib
import time
import urllib.parse

from browser import Failed

ROOT = pathlib.Path(__file__).resolve().parents[2]
ADDRESS = "file://" + urllib.parse.quote(str(ROOT / "web" / "index.html"))
TESTS = []


def test(name):
    """Marks a function of a Page as the test of that name."""
    def add(function):
        TESTS.append((name, function))
        return function
    return add


def same(got, wanted):
    if got != wanted:
        raise Failed(f"{got!r} in the place of {wanted!r}")


def example(name):
    return (ROOT / "examples" / name).read_text()


class Page:
    def __init__(self, browser):
        self.browser = browser
        self.run = browser.run
        self.press = browser.press
        self.fresh = False

    def open(self, first="", fragment=""):
        self.browser.open(ADDRESS + fragment, first)
        self.fresh = first == ""
        self.wait("compiledModule !== undefined && !checking && at('state').textContent !== 'loading…'")

    def start(self, *files, input="", first=""):
        """The page with this program, given as pairs of a name and a text; it is opened anew only where that makes a difference."""
        if first or not self.fresh:
            self.open(first)
        made = json.dumps({"files": [{"name": name, "text": text} for name, text in files], "input": input})
        self.run("program.stop(); choose('console'); at('how').value = 'run';")
        self.run("for (const { id } of OPTIONS) at(id).value = at(id).defaultValue, at(id).checked = false;")
        self.run(f"openProgram({made})")
        self.checked()

    def checked(self):
        self.wait("!checking")

    def wait(self, condition, within=20):
        """Waits until an expression of the page is true, and answers it."""
        until = time.monotonic() + within
        while time.monotonic() < until:
            found = self.run(f"return {condition};")
            if found:
                return found
            time.sleep(0.02)
        raise Failed(f"never came: {condition}; the page says {self.state()!r}")

    @staticmethod
    def until(condition, within=10):
        """Waits for what happens outside of the page."""
        end = time.monotonic() + within
        while not condition():
            if time.monotonic() > end:
                raise Failed("never came")
            time.sleep(0.05)

    def state(self):
        return self.run("return at('state').textContent;")

    def text(self, where):
        return self.run(f"return at({json.dumps(where)}).textContent;")

    def faults(self):
        return self.run("return [...at('faults').querySelectorAll('.fault')].map((it) => it.textContent);")

    def click(self, where):
        self.run(f"at({json.dumps(where)}).click();")

    def type(self, letters):
        """Typed where the focus is; a newline is the Enter key."""
        for i, part in enumerate(letters.split("\n")):
            if i > 0:
                self.press("Enter", 13, text="\r")
            if part:
                self.browser.insert(part)

    def ended(self):
        self.wait("!program.runs", 60)
        return self.text("output")

    def moved(self, button=None):
        """Presses a button of the machine, if one is named, and answers what stands there when the move is made."""
        if button:
            self.click(button)
        self.wait("!machine.moves")
        return self.text("where")
