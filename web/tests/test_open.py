"""The committed page as a person opens it: by a file, with nothing but itself, and within ten seconds."""

import re
import unittest

import support
from page import compose
from support import PageTest, browser


class Opened(PageTest):
    """The very file of the repository, whose modules are out of sight."""

    def setUp(self):
        self.b = browser()
        self.b.size(1400, 1000)
        self.b.dark(False)
        self.open(compose.PAGE)

    def test_it_says_what_it_guarantees_and_keeps_it(self):
        self.assertIn("No power loss undoes a key that this keyboard confirmed, on flash whose torn cells read the same each time.", self.b.text(".lead"))
        self.ledger("Set a key, then cut the power")
        self.assign(0, 5)
        self.good("Set key 0 on layer 0 to B: confirmed.")
        self.b.click("#cut")
        self.ledger("1 change confirmed, all of it is there")
        self.legend(0, "B")
        self.assertLess(self.b.worked(), 10 * support.SLOW, "a person looks at it no longer")

    def test_it_asks_for_nothing_else(self):
        asked = [url for url in self.b.asked if not url.startswith(("data:", "blob:"))]
        self.assertEqual(len(asked), 1, asked)
        self.assertTrue(asked[0].startswith("file://"))

    def test_its_modules_are_out_of_sight(self):
        self.assertEqual(self.b.js("typeof globalThis.page + typeof globalThis.modules"), "undefinedundefined")


class Policy(PageTest):
    """The Content-Security-Policy that stands in the file, and that the browser goes by it."""

    def test_it_allows_what_is_stated_and_no_more(self):
        policy = re.search(r'http-equiv="Content-Security-Policy" content="([^"]*)"', compose.PAGE.read_text())[1]
        rules = dict(rule.strip().split(" ", 1) for rule in policy.split(";"))
        self.assertEqual(rules["default-src"], "'none'")
        self.assertEqual(rules["connect-src"], "'none'")
        self.assertRegex(rules["script-src"], r"^'sha256-[A-Za-z0-9+/=]{44}' 'wasm-unsafe-eval'$")
        self.assertRegex(rules["style-src"], r"^'sha256-[A-Za-z0-9+/=]{44}'$")
        self.assertEqual(rules["img-src"], "data:")

    def test_the_browser_goes_by_it(self):
        tried = self.b.js("""(async () => {
            const said = [];
            addEventListener("securitypolicyviolation", (event) => said.push(event.effectiveDirective));
            const script = document.createElement("script");
            script.textContent = "globalThis.broken = true";
            document.body.append(script);
            await fetch("https://example.org/").catch(() => {});
            setTimeout("globalThis.broken = true");
            const element = document.createElement("p");
            element.setAttribute("style", "color: red");
            for (let n = 0; n < 400 && new Set(said).size < 4; n++) await new Promise((done) => setTimeout(done, 50));
            return [globalThis.broken ?? false, [...new Set(said)].sort()];
        })()""")
        self.b.said = []
        self.assertEqual(tried[0], False)
        self.assertEqual(tried[1], ["connect-src", "script-src", "script-src-elem", "style-src-attr"])


class Source(unittest.TestCase):
    """What the modules may not do."""

    def test_nothing_is_set_as_html_and_no_file_is_long(self):
        for file in sorted(compose.FOLDER.glob("*.js")):
            text = file.read_text()
            with self.subTest(file.name):
                self.assertNotRegex(text, r"innerHTML|outerHTML|insertAdjacentHTML|document\.write|DOMParser|srcdoc|new Function|\beval\b")
                self.assertNotRegex(text, r"https?://|globalThis|localStorage|XMLHttpRequest|WebSocket|EventSource|sendBeacon")
                self.assertLess(text.count("\n"), 300)
