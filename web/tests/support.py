"""What the tests of the page stand on: one browser, the page with its modules in sight, and what a user does."""

import contextlib
import fcntl
import functools
import itertools
import json
import os
import pathlib
import re
import shutil
import subprocess
import time
import unittest

from browser import Browser
from page import compose, core

ROOT = pathlib.Path(__file__).resolve().parent.parent.parent
OUT = ROOT / "out/page"
SHOTS = OUT / "shots"
EXAMPLES = ROOT / "examples"
# The modules of the page, which it keeps to itself.
IN_SIGHT = 'globalThis.page = Object.assign({}, ...Object.values(modules));\n'
NOTES = []
# What tests pressed: the names of controls that pressed.js gives. `WHOLE`: whether every test is run.
PRESSED = set()
WHOLE = False
WATCH = (ROOT / "web/tests/pressed.js").read_text()
# How many times slower than this machine the page is run.
SLOW = 1
_kept = {}
_numbers = itertools.count()


@contextlib.contextmanager
def alone():
    """For what one process of the tests does at a time."""
    OUT.mkdir(parents=True, exist_ok=True)
    with open(OUT / "lock", "w") as lock:
        fcntl.flock(lock, fcntl.LOCK_EX)
        yield


def browser():
    """The browser, which is started once."""
    if "browser" not in _kept:
        _kept["browser"] = Browser(slow=SLOW)
    return _kept["browser"]


def end():
    """Ends the browser, and takes away the files that it was given."""
    if "browser" in _kept:
        _kept.pop("browser").close()
    shutil.rmtree(OUT / "files" / str(os.getpid()), ignore_errors=True)


@functools.cache
def module():
    """The WebAssembly module of the committed page. Other tools than those that made it don't give its bytes: then one that they build."""
    if not core.lacks() and core.tools() != core.recorded_tools():
        with alone():
            return core.build()[0]
    return compose.module_of(compose.PAGE.read_text())


@functools.cache
def page_in_sight(wasm=None, name="test"):
    """A file of the page whose modules tests can call, with another WebAssembly module where one is given."""
    file = OUT / f"{name}.html"
    text = compose.page(wasm or module(), after=IN_SIGHT)
    with alone():
        if not file.exists() or file.read_text() != text:
            file.write_text(text)
    return file


def kbsim():
    """The path of a built kbsim, or a skip."""
    if "kbsim" not in _kept:
        with alone():
            ran = subprocess.run([ROOT / "bin/kbsim", "--quiet", "--path"], stdout=subprocess.PIPE, stderr=subprocess.PIPE, text=True)
        _kept["kbsim"] = ran.stdout.strip() if ran.returncode == 0 else ""
    if not _kept["kbsim"]:
        raise unittest.SkipTest("bin/kbsim can't be built here")
    return _kept["kbsim"]


def compiler_is_there():
    """Skips where the core can't be built."""
    if core.lacks():
        raise unittest.SkipTest(core.lacks())


class PageTest(unittest.TestCase):
    """Each test begins with the page as it is when it is opened."""

    before = ""

    def setUp(self):
        self.b = browser()
        self.b.size(1400, 1000)
        self.b.dark(False)
        self.open(page_in_sight())

    def open(self, file):
        """Opens a file of the page."""
        self.leave()
        script = self.b.call("Page.addScriptToEvaluateOnNewDocument", source=WATCH + self.before)["identifier"]
        self.b.said, self.b.asked = [], []
        self.b.open(file)
        self.b.call("Page.removeScriptToEvaluateOnNewDocument", identifier=script)

    def leave(self):
        """Keeps what was pressed on the page that is left."""
        PRESSED.update(self.b.js("globalThis.controls?.pressed() ?? []"))

    def tearDown(self):
        self.leave()
        self.assertEqual(self.b.said, [], "the page had errors")

    # What a user does

    def view(self, name):
        """Goes to a view."""
        self.b.js(f"[...document.querySelectorAll('#views button')].find((one) => one.textContent === {name!r}).click()")
        self.frame()

    def tab(self, name):
        """Goes to a tab of Play."""
        self.b.js(f"[...document.querySelectorAll('#tabs button')].find((one) => one.textContent === {name!r}).click()")
        self.frame()

    def frame(self):
        """Waits until what changed is drawn."""
        self.b.js("new Promise((done) => requestAnimationFrame(() => requestAnimationFrame(() => done(true))))")

    def assign(self, key, code, group=""):
        """Chooses a key and a code of a group, by clicks: the sentence that says what is then true."""
        self.b.click(f'#keyboard button[data-key="{key}"]')
        if group:
            self.b.js(f"[...document.querySelectorAll('#groups button')].find((one) => one.textContent === {group!r}).click()")
        self.frame()
        name = self.b.js(f"document.querySelector('#palette button[data-code=\"{code}\"]').getAttribute('aria-label')")
        layer = self.b.js("[...document.querySelector('#layers').children].findIndex((one) => one.getAttribute('aria-pressed') === 'true')")
        self.b.click(f'#palette button[data-code="{code}"]')
        return f"Set key {key} on layer {layer} to {name}"

    def assigned(self, key, code, group=""):
        """Assigns a code, and waits until this command is confirmed."""
        self.good(f"{self.assign(key, code, group)}: confirmed.")

    # What stands on the page once it has done what it was asked for. Each waits for what is expected, since a page answers in
    # its own time: what stood there before is never taken for the answer.

    def becomes(self, read, wanted):
        """Waits until what is read is what is wanted: a value, or a pattern of all of a text."""
        until = time.monotonic() + self.b.seconds
        fits = wanted.fullmatch if isinstance(wanted, re.Pattern) else wanted.__eq__
        while True:
            found = read()
            if fits(found) not in (None, False, NotImplemented):
                return found
            if time.monotonic() > until:
                self.fail(f"it never was {wanted!r}, and is {found!r}")
            time.sleep(0.01)

    def shows(self, selector, wanted):
        """Waits until an element has a text."""
        return self.becomes(lambda: self.b.text(selector), wanted)

    def has(self, expression, wanted):
        """Waits until an expression has a value."""
        return self.becomes(lambda: self.b.js(expression), wanted)

    def good(self, wanted):
        """Waits until the page says under the picture that something was done."""
        return self.message("good", wanted)

    def bad(self, wanted):
        """Waits until the page says under the picture that something was refused."""
        return self.message("bad", wanted)

    def message(self, kind, wanted):
        """Waits until the sentence under the picture is of a kind, and is what is wanted."""
        read = f"(() => {{ const one = document.querySelector('#message'); return one.classList.contains({kind!r}) ? one.textContent : `not {kind}: ${{one.textContent}}`; }})()"
        return self.has(read, wanted)

    def forget(self):
        """Takes the sentence under the picture away, where the next one may be the same."""
        self.b.js("page.model.say('')")
        self.shows("#message", "")

    def legend(self, key, wanted):
        """Waits until a text stands on a key."""
        return self.shows(f'#keyboard button[data-key="{key}"]', wanted)

    def ledger(self, wanted):
        """Waits until the head of the ledger is this."""
        return self.shows("#ledger-head", wanted)

    def writing(self):
        """Waits until a command waits for its flash work."""
        self.b.wait("page.session.ledger.pending !== null")

    def entry(self, layer, key, wanted):
        """Waits until an entry of the simulated keyboard has a code."""
        return self.has(f"page.session.bench.device.keymap()[{96 * layer + key}]", wanted)

    # What is so without an action before, or after one that was waited for

    def slot(self, page, number):
        """The bytes of a slot in hex."""
        return self.b.js(f"page.bytesHex(page.session.bench.device.slot({page}, {number}))")

    def chosen(self, button, name, content):
        """Presses what opens a choice of a file, and chooses one of this content."""
        self.b.choose_file(lambda: self.b.click(button), self.file(name, content))

    def file(self, name, content):
        """A file of this content, in a folder of its own: a browser refuses to read one that was changed after it was chosen."""
        file = OUT / "files" / str(os.getpid()) / str(next(_numbers)) / name
        file.parent.mkdir(parents=True)
        file.write_bytes(content if isinstance(content, bytes) else content.encode())
        return file

    def drop(self, selector, name, content):
        """Gives a file of this content to an input."""
        self.b.files(selector, self.file(name, content))

    def downloaded(self, selector):
        """Presses what gives a file: its name and its bytes."""
        return self.b.js(f"""(async () => {{
            const {{ click }} = HTMLAnchorElement.prototype, {{ createObjectURL }} = URL;
            let name = "", blob = null;
            HTMLAnchorElement.prototype.click = function () {{ name = this.download; }};
            URL.createObjectURL = (given) => createObjectURL.call(URL, (blob = given));
            document.querySelector({json.dumps(selector)}).click();
            while (!name) await new Promise((done) => setTimeout(done, 10));
            Object.assign(HTMLAnchorElement.prototype, {{ click }});
            Object.assign(URL, {{ createObjectURL }});
            return [name, page.bytesHex(new Uint8Array(await blob.arrayBuffer()))];
        }})()""")


def quoted(text):
    """A text as an expression of JavaScript."""
    return json.dumps(text)
