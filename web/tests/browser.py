"""A headless Chromium, driven over a pipe: the DevTools protocol by Python's library alone, without a driver or a port."""

import base64
import json
import os
import select
import subprocess
import tempfile
import time

FLAGS = ["--headless=new", "--remote-debugging-pipe", "--no-sandbox", "--disable-gpu", "--no-first-run", "--hide-scrollbars",
         "--disable-background-networking", "--disable-component-update", "--disable-extensions", "--disable-dev-shm-usage"]
SECONDS = 90


class Browser:
    """A browser with one page, with a profile of its own that has these preferences. `said` holds the errors of the page. It is run
    `slow` times slower; on a machine that is slow itself, only the waits are `patience` times as long."""

    def __init__(self, program="chromium", slow=1, patience=1, preferences=None, flags=()):
        self.seconds = SECONDS * slow * patience
        self.home = tempfile.TemporaryDirectory(prefix="page-test-")
        if preferences:
            os.mkdir(f"{self.home.name}/Default")
            with open(f"{self.home.name}/Default/Preferences", "w", encoding="utf-8") as file:
                json.dump(preferences, file)
        to_read, self.write_end = os.pipe()
        self.read_end, to_write = os.pipe()

        def descriptors():
            # Copied up first: the numbers 3 and 4 may be among the ends themselves.
            one, other = os.dup(to_read), os.dup(to_write)
            os.dup2(one, 3)
            os.dup2(other, 4)

        self.process = subprocess.Popen([program, *FLAGS, *flags, f"--user-data-dir={self.home.name}", "about:blank"], preexec_fn=descriptors,
                                        close_fds=False, stdout=subprocess.DEVNULL, stderr=subprocess.DEVNULL)
        os.close(to_read)
        os.close(to_write)
        self.rest, self.number, self.session, self.said, self.asked, self.chooser = b"", 0, None, [], [], None
        target = next(one for one in self.call("Target.getTargets")["targetInfos"] if one["type"] == "page")
        self.session = self.call("Target.attachToTarget", targetId=target["targetId"], flatten=True)["sessionId"]
        for domain in ("Page", "Runtime", "Log", "Network"):
            self.call(f"{domain}.enable")
        self.call("Performance.enable", timeDomain="threadTicks")
        if slow != 1:
            self.call("Emulation.setCPUThrottlingRate", rate=slow)
        self.size(1400, 1000)

    def call(self, method, **params):
        """Calls a method of the protocol: its result."""
        self.number += 1
        message = {"id": self.number, "method": method, "params": params, **({"sessionId": self.session} if self.session else {})}
        os.write(self.write_end, json.dumps(message).encode() + b"\0")
        until = time.monotonic() + self.seconds
        while True:
            answer = self.receive(until)
            if answer.get("id") == self.number:
                if "error" in answer:
                    raise RuntimeError(f"{method}: {answer['error']}")
                return answer["result"]
            self.event(answer)

    def version(self):
        """Which browser it is."""
        session, self.session = self.session, None
        product = self.call("Browser.getVersion")["product"]
        self.session = session
        return product

    def receive(self, until):
        """The next message."""
        while b"\0" not in self.rest:
            if not select.select([self.read_end], [], [], max(0, until - time.monotonic()))[0]:
                raise RuntimeError(f"the browser did not answer within {self.seconds} s")
            more = os.read(self.read_end, 1 << 16)
            if not more:
                raise RuntimeError("the browser ended")
            self.rest += more
        one, self.rest = self.rest.split(b"\0", 1)
        return json.loads(one)

    def event(self, event):
        """Keeps what the page says and asks for."""
        method, params = event.get("method"), event.get("params", {})
        if method == "Runtime.exceptionThrown":
            details = params["exceptionDetails"]
            self.said.append(details.get("exception", {}).get("description") or details["text"])
        elif method == "Log.entryAdded" and params["entry"]["level"] in ("error", "warning"):
            self.said.append(params["entry"]["text"])
        elif method == "Network.requestWillBeSent":
            self.asked.append(params["request"]["url"][:80])
        elif method == "Page.fileChooserOpened":
            self.chooser = params["backendNodeId"]

    def size(self, width, height):
        """The size of the page, in CSS pixels."""
        self.call("Emulation.setDeviceMetricsOverride", width=width, height=height, deviceScaleFactor=1, mobile=False)

    def dark(self, on):
        """The theme that the user prefers."""
        self.call("Emulation.setEmulatedMedia", features=[{"name": "prefers-color-scheme", "value": "dark" if on else "light"}])

    def before_the_page(self, script):
        """Runs a script before those of each page that is opened from now on."""
        self.call("Page.addScriptToEvaluateOnNewDocument", source=script)

    def open(self, path):
        """Opens a file."""
        self.call("Page.navigate", url=path.resolve().as_uri())
        self.wait("document.readyState === 'complete' && document.querySelectorAll('#keyboard button').length > 0")

    def js(self, expression):
        """The value of an expression, which may be a promise."""
        result = self.call("Runtime.evaluate", expression=expression, awaitPromise=True, returnByValue=True, userGesture=True)
        if "exceptionDetails" in result:
            raise RuntimeError(result["exceptionDetails"].get("exception", {}).get("description") or str(result["exceptionDetails"]))
        return result["result"].get("value")

    def wait(self, expression):
        """Waits until an expression is true."""
        until = time.monotonic() + self.seconds
        while not self.js(expression):
            if time.monotonic() > until:
                raise RuntimeError(f"never true: {expression}")
            time.sleep(0.01)

    def worked(self):
        """The seconds for which the page's thread had a processor since the page was opened: another program beside it adds none."""
        return next(one["value"] for one in self.call("Performance.getMetrics")["metrics"] if one["name"] == "TaskDuration")

    def middle(self, selector):
        """The middle of an element, which is scrolled to once what the page was about to draw is drawn."""
        return self.js(f"new Promise((done) => requestAnimationFrame(() => {{ const e = document.querySelector({json.dumps(selector)}); e.scrollIntoView({{ block: 'center', inline: 'nearest' }});"
                       " const b = e.getBoundingClientRect(); done([b.left + b.width / 2, b.top + b.height / 2]); }))")

    def click(self, selector, modifiers=0):
        """A real click in the middle of an element."""
        x, y = self.middle(selector)
        for kind in ("mousePressed", "mouseReleased"):
            self.call("Input.dispatchMouseEvent", type=kind, x=x, y=y, button="left", clickCount=1, modifiers=modifiers)

    def press(self, key, code, number, modifiers=0, until=""):
        """A key of the user's keyboard, which is held until an expression is true."""
        text = {"text": "\r"} if key == "Enter" else {"text": key} if len(key) == 1 else {}
        self.call("Input.dispatchKeyEvent", type="keyDown" if text else "rawKeyDown", key=key, code=code, windowsVirtualKeyCode=number, modifiers=modifiers, **text)
        if until:
            self.wait(until)
        self.call("Input.dispatchKeyEvent", type="keyUp", key=key, code=code, windowsVirtualKeyCode=number, modifiers=modifiers)

    def text(self, selector):
        """The text of an element."""
        return self.js(f"document.querySelector({json.dumps(selector)}).textContent")

    def choose(self, selector, value):
        """Chooses an option of a select, or fills an input, as a user does."""
        self.js(f"(() => {{ const e = document.querySelector({json.dumps(selector)}); e.value = {json.dumps(value)};"
                " for (const type of ['input', 'change']) e.dispatchEvent(new Event(type, { bubbles: true })); })()")

    def files(self, selector, *paths):
        """Gives files to an input."""
        element = self.call("Runtime.evaluate", expression=f"document.querySelector({json.dumps(selector)})")["result"]["objectId"]
        self.call("DOM.setFileInputFiles", objectId=element, files=[str(path) for path in paths])

    def choose_file(self, act, path):
        """Does what makes the browser ask for a file, and chooses one."""
        self.call("Page.setInterceptFileChooserDialog", enabled=True)
        self.chooser = None
        act()
        until = time.monotonic() + self.seconds
        while self.chooser is None:
            self.event(self.receive(until))
        self.call("DOM.setFileInputFiles", backendNodeId=self.chooser, files=[str(path)])
        self.call("Page.setInterceptFileChooserDialog", enabled=False)

    def screenshot(self, path, whole=False):
        """Keeps a picture of the page, or of all of it."""
        path.parent.mkdir(parents=True, exist_ok=True)
        path.write_bytes(base64.b64decode(self.call("Page.captureScreenshot", format="png", captureBeyondViewport=whole, optimizeForSpeed=True)["data"]))

    def close(self):
        """Ends the browser."""
        try:
            self.session = None
            self.call("Browser.close")
        except (RuntimeError, OSError):
            pass
        try:
            self.process.wait(10)
        except subprocess.TimeoutExpired:
            self.process.kill()
        for end in (self.read_end, self.write_end):
            os.close(end)
        self.home.cleanup()
