"""What is no image, keymap, picture, descriptor or script gets a sentence and changes nothing, and no text is taken for HTML."""

import json
import re

from support import PageTest, quoted
from test_configure import PLAYED, keymap_file

MEBIBYTE = 1 << 20
HTML = "<img src=x onerror='globalThis.taken = true'><script>globalThis.taken = true</script>"
# Files of 1 MB: random bytes, zeros, brackets, digits, quotes, text.
LARGE = {
    "zeros": bytes(MEBIBYTE), "ones": b"\xff" * MEBIBYTE, "brackets": b"[" * MEBIBYTE, "braces": b'{"a":' * (MEBIBYTE // 5), "digits": b"1" * MEBIBYTE,
    "quotes": b'"' * MEBIBYTE, "words": b"05 01 " * (MEBIBYTE // 6), "lines": b"\n" * MEBIBYTE, "commas": b"[" + b"1," * (MEBIBYTE // 2 - 1) + b"1]",
    "mixed": bytes((n * n * 31 + n // 7) % 256 for n in range(MEBIBYTE)), "html": HTML.encode() * (MEBIBYTE // len(HTML)),
}


class Malformed(PageTest):
    """Large files that are nothing."""

    def state(self):
        """All that a file could change."""
        return self.b.js("[page.bytesHex(page.session.bench.device.image()), page.session.ledger.confirmed, page.model.picture.name, document.querySelectorAll('#keyboard button').length]")

    def told(self, selector, sentence):
        """Waits until a sentence stands there."""
        self.shows(selector, re.compile(sentence))

    def each(self, selector, where, sentence, leave=()):
        """Gives each large file to an input: a sentence that begins with its name stands there, and nothing is changed."""
        before = self.state()
        for name, content in LARGE.items():
            if name in leave:
                continue
            with self.subTest(name):
                self.drop(selector, f"{name}.bin", content)
                self.told(where, sentence.replace("NAME", name))
        self.assertEqual(self.state(), before)

    def test_images(self):
        self.assigned(0, 5)
        self.each("#image-file", "#image-said", r"NAME\.bin: it has [\d,]+ bytes, and an image has 2 to 8 pages of 4,096\. Nothing was changed\.")
        self.each("#compare-file", "#image-said", r"NAME\.bin: it has [\d,]+ bytes, .* Nothing is compared\.")
        for size in (0, 4096, 8191, 9 * 4096):
            self.drop("#image-file", f"of{size}.img", bytes(size))
            self.told("#image-said", rf"of{size}\.img: it has .* Nothing was changed\.")

    def test_images_of_any_bytes(self):
        """Of the right size any bytes are a flash: the keyboard starts on it, and writes nothing where it is damaged."""
        for name in ("zeros", "mixed", "html"):
            self.drop("#image-file", f"{name}.img", LARGE[name][:8192])
            self.told("#image-said", rf"{name}\.img: it started on this image\.")
            self.bad(re.compile(rf"{re.escape(self.assign(0, 5))}: .*Unsound \(11\).*"))
            self.forget()

    def test_keymaps(self):
        self.view("Configure")
        self.each("#load-file", "#message", r"NAME\.bin is no keymap: it has [\d,]+ bytes, and a keymap at most 65,536\. Nothing was sent\.")
        for name, content in LARGE.items():
            self.drop("#load-file", f"{name}.part", content[:65000])
            self.told("#message", rf"{name}\.part is no keymap: .+\. Nothing was sent\.")
        self.assertEqual(self.b.js("page.session.ledger.confirmed"), 0)

    def test_a_file_that_the_browser_can_not_read(self):
        self.b.js("Blob.prototype.arrayBuffer = () => Promise.reject(new DOMException('', 'NotReadableError'))")
        before = self.state()
        for view, selector, where in (("Play", "#image-file", "#image-said"), ("Play", "#compare-file", "#image-said"), ("Play", "#picture-file", "#message"),
                                      ("Configure", "#load-file", "#message"), ("Describe", "#descriptor-file", "#described")):
            self.view(view)
            name = f"{selector[1:]}.bin"
            self.drop(selector, name, b"[]")
            self.told(where, rf"{name}: the browser could not read it\.")
        self.assertEqual(self.state(), before)

    def test_pictures(self):
        self.each("#picture-file", "#message", r"The picture NAME\.bin: .+\.")
        for name, text in {"none": "[]", "key": '[["96"]]', "place": '[["9,0"]]', "many": json.dumps([["1"] * 300]), "size": '[[{"w": -1}, "1"]]', "far": '[[{"x": 1e300}, "1"]]',
                           "word": '[[{"x": "1"}, "1"]]', "null": '[[null]]', "object": "{}"}.items():
            self.drop("#picture-file", f"{name}.json", text)
            self.told("#message", rf"The picture {name}\.json: .+\.")
            self.assertEqual(self.b.js("page.model.picture.name"), "ANSI 87")

    def test_descriptors(self):
        self.view("Describe")
        before = self.state()
        for name, content in LARGE.items():
            with self.subTest(name):
                self.b.js("document.querySelector('#described').textContent = ''")
                self.drop("#descriptor-file", f"{name}.bin", content)
                self.told("#described", r"(This is no report descriptor: .+|Fault \d+ at byte .+)\.")
        for name in ("zeros", "mixed", "brackets"):
            self.b.js("document.querySelector('#described').textContent = ''")
            self.drop("#descriptor-file", f"{name}.part", LARGE[name][:30000])
            self.told("#described", r"(This is no report descriptor: .+|Fault \d+ at byte .+)\.")
        self.b.choose("#report", "0" * MEBIBYTE)
        self.shows("#report-said", "A report is read by a descriptor without a fault.")
        self.b.click("#own-descriptor")
        self.b.choose("#report", "01" * 40000)
        self.told("#report-said", r"This report is not read: .*\.")
        self.assertEqual(self.state(), before)

    def test_no_text_takes_long(self):
        """Texts of 256 KiB, of which a reader that is quadratic makes minutes."""
        for name, text in {"blank lines": "'\\n'", "returns": "'\\r'", "spaces": "' '", "comments": "'/* '", "lines": "'//'", "marks": "'# '", "braces": "'{ '", "dump": "'00 '", "spaced dump": "'00  '"}.items():
            for begin, end in (("''", "''"), ("'00000000 '", "'\\u2028.'")):
                with self.subTest(name):
                    said, took = self.b.js(f"""(() => {{
                        const text = {begin} + {text}.repeat(262144 / {text}.length) + {end}, begun = performance.now();
                        let said = "";
                        try {{ page.bytesOfText(text); }} catch (fault) {{ said = fault instanceof page.Refused ? fault.message : String(fault); }}
                        return [said, performance.now() - begun];
                    }})()""")
                    self.assertRegex(said, r"^$|no byte|at most 4,096|^line \d+, column \d+: |no form of bytes")
                    self.assertLess(took, 5000)
        self.assertEqual(self.b.js("page.bytesHex(page.bytesOfText('05 /* a // b */ 01 // c /*\\n 09 06 // */'))"), "05010906")
        self.assertEqual(self.b.js("[...page.bytesOfText('05 '.repeat(30000))].length"), 30000)

    def test_a_descriptor_with_the_most_of_all(self):
        """256 fields of 1,024 places: drawn as far as it says, and quickly."""
        self.view("Describe")
        self.b.choose("#descriptor", "05 09 75 20 96 00 04 " + "09 01 81 02 " * 256)
        self.told("#described", r".*256 fields, 1 report\. No fault\..*")
        self.told("#reports", r".*The first 128 are drawn\..*")

    def test_scripts(self):
        self.tab("Script")
        self.b.choose("#script", "x" * (MEBIBYTE + 1))
        self.shows("#script-said", "fault too long")
        self.b.choose("#script", HTML)
        self.shows("#script-said", "fault line 1: unknown word")


class NoHtml(PageTest):
    """Text is text, wherever it is pasted."""

    before = PLAYED

    def test_nothing_that_is_pasted_is_taken_for_html(self):
        elements = self.b.js("document.querySelectorAll('img, script, iframe, object').length")
        self.b.choose("#mask", "own")
        self.b.choose("#mask-hex", HTML)
        self.b.click("#cut-inside")
        self.drop("#image-file", "a<img src=x onerror=taken=1>.img", bytes(8192))
        self.drop("#picture-file", "b<img src=x onerror=taken=1>.json", json.dumps([["0,0", HTML]]))
        self.drop("#picture-file", "c.json", json.dumps([[HTML]]))
        self.tab("Script")
        self.b.choose("#script", HTML)
        self.view("Configure")
        self.drop("#load-file", "d<img src=x onerror=taken=1>.json", json.dumps({HTML: 1}))
        self.drop("#load-file", "e.json", json.dumps(keymap_file(format=HTML)))
        self.b.js(f"played.offer(new played.Played()).productName = {quoted(HTML)}")
        self.b.click("#connect")
        self.good(f"{HTML} is connected.")
        self.shows("#device", HTML)
        self.view("Describe")
        for text in (HTML, f"05 01 {HTML}", "{ " + HTML + " }"):
            self.b.choose("#descriptor", text)
            self.shows("#described", re.compile(".*is no (hex digit|byte; .+)\\."))
        self.b.click("#own-descriptor")
        self.b.choose("#report", HTML)
        self.frame()
        self.assertEqual(self.b.js("document.querySelectorAll('img, script, iframe, object').length"), elements)
        self.assertEqual(self.b.js("typeof globalThis.taken"), "undefined")
