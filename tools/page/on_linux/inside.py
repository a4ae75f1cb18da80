"""What is done in the guest: a person's steps on the page, and what Linux gets of the keyboard."""

import contextlib
import http.server
import json
import os
import pathlib
import re
import select
import struct
import sys
import threading
import time

ROOT = pathlib.Path(sys.argv[1])
sys.path.insert(0, str(ROOT / "web/tests"))

from browser import Browser  # noqa: E402

OUT = pathlib.Path("/out")
PORT, OTHER_PORT = 8000, 8001
SERVED, SERVED_ELSEWHERE = (f"http://localhost:{port}/wuzhikar.html" for port in (PORT, OTHER_PORT))
FILE = (ROOT / "web/wuzhikar.html").as_uri()
KEY_B = 48  # Linux, include/uapi/linux/input-event-codes.h
EV_KEY = 1
VENDOR, PRODUCT, SERIAL = 0x1209, 1, "1"
LONG = 1800  # seconds that a thing may take
PAUSE = 1  # seconds between two looks, each of which takes the interpreter long
# Fewer processes, and none for an address line that nobody sees here.
FLAGS = ["--in-process-gpu", "--enable-features=NetworkServiceInProcess2",
         "--disable-features=WebUIOmniboxPopup,WebUIOmniboxAimPopup,OmniboxWebUI,WebUIOmniboxFullPopup"]
BEGUN = time.monotonic()


def saw(text):
    """Tells what was seen."""
    print(f"saw [{time.monotonic() - BEGUN:6.1f} s] {text}", flush=True)


class Otherwise(Exception):
    """Something is otherwise than it should be."""


def hands(line):
    """Moves the hands of the keyboard."""
    with open("/dev/ttyS1", "w", encoding="utf-8") as file:
        file.write(f"{line}\n")


def within(seconds, read, wanted):
    """Waits until what is read is what is wanted, a pattern: its match."""
    until = time.monotonic() + seconds
    while True:
        found = read()
        match = re.fullmatch(wanted, str(found), re.S)
        if match:
            return match
        if time.monotonic() > until:
            raise Otherwise(f"not {wanted!r}, but {found!r}")
        time.sleep(PAUSE)


class Events:
    """The events of the keyboard that is plugged in, as Linux gives them to programs (evdev)."""

    def __init__(self):
        text = pathlib.Path("/proc/bus/input/devices").read_text(encoding="utf-8")
        blocks = [block for block in text.split("\n\n") if "Bus=0003" in block and "kbd" in block]
        self.files = [os.open(f"/dev/input/{name}", os.O_RDONLY | os.O_NONBLOCK) for block in blocks for name in re.findall(r"event\d+", block)]

    def pressed(self, count):
        """The codes of the next keys that are pressed."""
        codes, until = [], time.monotonic() + LONG
        while len(codes) < count and time.monotonic() < until:
            for file in select.select(self.files, [], [], 1)[0]:
                data = os.read(file, 24 * 64)
                for _, _, kind, code, value in struct.iter_unpack("qqHHi", data):
                    codes += [code] if (kind, value) == (EV_KEY, 1) else []
        return codes


class Person:
    """A browser with the page, and what a person does in it."""

    def __init__(self, url, **options):
        self.b = Browser(program="/usr/bin/chromium", patience=20, flags=FLAGS, **options)
        saw("Chromium is up")
        self.open(url)

    def open(self, url):
        """Opens the page, and goes to Configure."""
        self.b.call("Page.navigate", url=url)
        within(LONG, lambda: self.b.js("document.readyState === 'complete' && document.querySelectorAll('#keyboard button').length > 0"), "True")
        self.b.js("[...document.querySelectorAll('#views button')].find((one) => one.textContent === 'Configure').click()")
        saw(f"the page is open, from {url.split('/wuzhikar')[0] if url.startswith('http') else 'a file'}")

    def shows(self, selector, wanted):
        """Waits until an element's text is what is wanted."""
        return within(LONG, lambda: self.b.text(selector), wanted)

    def assign(self, key, code):
        """Chooses a key and what it is."""
        self.b.click(f'#keyboard button[data-key="{key}"]')
        self.b.click(f'#palette button[data-code="{code}"]')

    def load(self, layers):
        """Loads a keymap of these layers."""
        file = pathlib.Path("/tmp/keymap.json")
        file.write_text(json.dumps({"format": "wuzhikar-keymap", "version": 1, "layers": layers}), encoding="utf-8")
        self.b.files("#load-file", file)

    def devices(self):
        """What the browser gives this page without asking."""
        return self.b.js("navigator.hid.getDevices().then((all) => all.map((one) => one.productName))")

    def says_key(self, key):
        """What the page says of a key."""
        return self.b.js(f"document.querySelector('#keyboard button[data-key=\"{key}\"]').title")

    def connected_anew(self):
        """Waits until the keyboard is there again and read: what the page says of the time."""
        self.shows("#device", "(?!Simulated).+")
        return self.shows("#progress-text", r"384 entries read in ([\d,]+) ms")[1]


def layers(first=4):
    """A keymap: layer 0 with its default but for key 0, and a code on each key of the others."""
    return [[f"{5 if key == 0 else 4 + key if key < 88 else 0xe0 + key - 88:04x}" for key in range(96)]] + [[f"{first + (key + layer) % 26:04x}" for key in range(96)] for layer in range(3)]


def typed(told):
    """Key 0 is pressed, and Linux gets KEY_B of it."""
    events = Events()
    hands("keys 0")
    hands("keys")
    got = events.pressed(1)
    if got != [KEY_B]:
        raise Otherwise(f"{told}: Linux did not get KEY_B of key 0, but {got}")
    saw(f"{told}: key 0 is pressed, and Linux gets KEY_B of it")


def configured(person):
    """Connect, read, assign, reset, type; the power goes, and the keyboard is plugged in anew."""
    told = person.connected_anew()
    name = person.shows("#device", "(?!Simulated).+")[0]
    saw(f"the page connects to {name!r}, and reads 384 entries in {told} ms")
    begun = time.monotonic()
    person.assign(0, 5)
    said = person.shows("#message", r"(?:Key|Set key) 0 on layer 0 .*B: confirmed\.")[0]
    saw(f"{said!r} after {(time.monotonic() - begun) * 1000:.0f} ms")
    typed("set")
    person.b.screenshot(OUT / "linux-set.png", whole=True)
    person.b.click('#layers button:nth-child(2)')
    person.b.click("#reset-layer")
    said = person.shows("#message", r".*ayer 1.*: confirmed\.")[0]
    person.b.click('#layers button:nth-child(1)')
    saw(f"{said!r}")
    for line, told in (("cut", "the power went and came back"), ("keyboard kept", "the keyboard was pulled out and plugged in")):
        person.b.js("document.querySelector('#progress-text').textContent = ''")
        hands(line)
        unplugged = person.shows("#message", r".*was unplugged.*|.*is connected.*|.*reading its keymap.*")[0]
        took = person.connected_anew()
        key = within(LONG, lambda: person.says_key(0), r"Key 0, layer 0: B")[0]
        saw(f"{told} ({unplugged!r}): the page connects again by itself, reads in {took} ms, and says {key!r}")
        typed(told)


def load_with_a_cut(person):
    """A load in whose middle the power goes, inside a write."""
    person.load(layers())
    within(LONG, lambda: person.b.text("#progress-text"), r"(?:[5-9]\d|1\d\d) of 288 changes confirmed")
    hands("tear 0f")
    told = person.shows("#message", r".*?(\d+) of 288 changes of keymap\.json were confirmed; \"Go on\" sends the rest\.|.*was not loaded to its end.*")
    saw(f"the power goes inside a write of a load: {told[0]!r}")
    person.shows("#message", r".*was not loaded to its end: \"Go on\" sends the rest\.")
    saw("the keyboard comes back onto the bus, and the page connects to it again by itself")
    person.b.screenshot(OUT / "linux-cut.png", whole=True)
    person.b.click("#resume")
    done = person.shows("#message", r"keymap\.json is loaded: (\d+) entries were changed, and each was confirmed\.")
    saw(f"\"Go on\": {done[0]!r}")
    person.b.js("document.querySelector('#read-all').click()")
    person.shows("#progress-text", r"384 entries read in .*")
    person.load(layers())
    person.shows("#message", r"keymap\.json is what the keyboard has already: nothing was sent\.")
    saw("read again, the keyboard has each entry of the file")
    person.b.screenshot(OUT / "linux.png", whole=True)


def refused(person):
    """What the keyboard stalls, and how it is told."""
    told = person.b.js("navigator.hid.getDevices().then(([one]) => one.sendFeatureReport(3, Uint8Array.of(1, 9, 0, 5, 0)).then(() => 'taken', (error) => error.name))")
    if told != "NotAllowedError":
        raise Otherwise(f"a command for layer 9 is {told}")
    saw(f"a command for layer 9, past the page's own check: the keyboard stalls, and WebHID tells {told}")
    hands("keyboard damaged")
    person.shows("#message", r".*was unplugged.*|.*reading its keymap.*")
    person.shows("#message", r".+ is connected\..*|Reading: .*refused.*")
    person.assign(0, 6)
    told = person.shows("#message", r"(?:Key|Set key) 0 on layer 0 .*C: .*refused.*")
    saw(f"a keyboard whose flash is damaged: {told[0]!r}")
    person.b.screenshot(OUT / "linux-refused.png", whole=True)
    hands("keyboard kept")
    person.shows("#message", r".+ is connected\..*")


def grant():
    """What a profile holds of a keyboard that a user chose on an earlier day: for localhost at PORT and for files, as Chromium keeps
    it (chrome://settings/content/hidDevices shows both)."""
    device = {"name": "Wuzhikar keyboard", "vendor-id": VENDOR, "product-id": PRODUCT, "serial-number": SERIAL}
    kept = {"last_modified": "13400000000000000", "setting": {"chosen-objects": [device]}}
    exceptions = {"hid_chooser_data": {f"{pattern},*": kept for pattern in (f"http://localhost:{PORT}", "file:///*")}}
    return {"profile": {"content_settings": {"exceptions": exceptions}}}


def grants(person):
    """Whether a grant lasts: what a page gets unasked when it is opened again, from another port that has none, and from a file."""
    for name, url in (("opened again", SERVED), ("from another port, for which nothing was chosen", SERVED_ELSEWHERE), ("from a file", FILE)):
        person.open(url)
        saw(f"{name}: the page gets {person.devices()} unasked, and says {person.b.text('#situation')!r}")
    person.b.screenshot(OUT / "linux-file.png", whole=True)


class Server(http.server.SimpleHTTPRequestHandler):
    """Serves the page, and says nothing."""

    def __init__(self, *words, **more):
        super().__init__(*words, directory=ROOT / "web", **more)

    def log_message(self, *_):
        pass


def main():
    """All of it."""
    for port in (PORT, OTHER_PORT):
        threading.Thread(target=http.server.ThreadingHTTPServer(("localhost", port), Server).serve_forever, daemon=True).start()
    saw(f"Linux {os.uname().release} is up, with a server on localhost")
    person = None
    try:
        person = Person(SERVED, preferences=grant())
        saw(f"it is {person.b.version()}; of a grant of an earlier day the page gets {person.devices()} unasked")
        configured(person)
        grants(person)
        person.open(SERVED)
        person.connected_anew()
        load_with_a_cut(person)
        refused(person)
        print("--- all was seen", flush=True)
    except (Otherwise, RuntimeError) as error:
        print(f"--- otherwise than it should be: {error}", flush=True)
        if person:
            with contextlib.suppress(RuntimeError, OSError):
                person.b.screenshot(OUT / "linux-otherwise.png", whole=True)


main()
