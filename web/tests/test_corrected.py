"""Flash with error correction: two units for each slot, and what a cut inside each of their writes leaves."""

import itertools
import random
import re

from support import NOTES, PageTest, SHOTS

# The cells of the data with what each turns in the check: 64 numbers of an odd number of bits, 3 or more.
COLUMNS = [number for number in range(1, 256) if number.bit_count() in (3, 5, 7)][:64]
BLANK = b"\xff" * 9
PLAIN, CORRECTED = (f"#flash-kind button:nth-child({number})" for number in (1, 2))
ROWS = ("#bits-word", "#bits-complement")
# Sets random entries of a keyboard, each cut with some luck inside a random write by a random mask.
CUTS = """((rounds) => {
    let ledger;
    const bench = new page.Bench(2, (what, bytes, said) => ledger.event(bench, what, bytes, said), true), reads = {};
    const below = (most) => Math.floor(Math.random() * most);
    const kinds = [() => new Uint8Array(), () => Uint8Array.of(255), () => crypto.getRandomValues(new Uint8Array(9)),
        () => new Uint8Array(9).fill(255), () => new Uint8Array(9)];
    const mask = () => {
        const kind = below(kinds.length), made = kinds[kind]();
        if (kind > 2) made[below(9)] ^= 1 << below(8);
        return made;
    };
    ledger = new page.Ledger(bench.device.keymap());
    for (let n = 0; n < rounds; n++) {
        const entry = [below(4), below(96), 0x4001 + below(0x3ff)];
        if (below(2)) bench.set(...entry);
        else {
            bench.setup(page.SET_FEATURE);
            bench.out(page.setReport(...entry));
            for (let steps = below(3); steps > 0 && bench.work() === "working"; steps--);
            bench.cut(mask(), below(2));
        }
    }
    for (let at = 0; at < 2048; at++) {
        const { reads: one } = bench.device.unit(at >> 10, at & 1023);
        reads[one] = (reads[one] ?? 0) + 1;
    }
    return { confirmed: ledger.confirmed, cuts: ledger.cuts, broken: ledger.broken, reads };
})"""
# What units read as whose writes were torn by these masks, the first of slot 1 on.
TORN = """((masks) => masks.map((mask) => {
    const device = new page.Device(2, true);
    device.setup(page.SET_FEATURE);
    device.out(page.setReport(0, 1, 29));
    device.work();
    device.workTorn(Uint8Array.from(mask), 0);
    const { reads, cells, right } = device.unit(0, 2);
    return [reads, page.bytesHex(cells), page.bytesHex(right)];
}))"""


def check(data):
    """The check of eight bytes, by the code alone."""
    turned = 0xFF
    for at, column in enumerate(COLUMNS):
        if not data[at // 8] >> (at % 8) & 1:
            turned ^= column
    return bytes([turned])


def unit(data):
    """The cells of a unit that was written whole."""
    return data + check(data)


def read(cells):
    """How cells read, and what they are corrected to: each single cell is tried."""
    if cells == BLANK:
        return "blank", cells
    if cells == unit(cells[:8]):
        return "word", cells
    for at in range(72):
        one = bytearray(cells)
        one[at // 8] ^= 1 << (at % 8)
        if one == unit(one[:8]):
            return ("error", cells) if one == BLANK else ("corrected", bytes(one))
    return "error", cells


def is_word(cells):
    """Whether the data is a word beside its complement."""
    return all(one ^ other == 0xFF for one, other in zip(cells[:4], cells[4:8], strict=True))


def said(how, right):
    """What the page says of a unit that reads so."""
    if how in ("blank", "error"):
        return {"blank": "blank", "error": "an error"}[how]
    return ("a word" if is_word(right) else "no word") + (", one cell corrected" if how == "corrected" else "")


def mistaken(cells):
    """Whether one cell of a unit is corrected, and what comes of it is no word."""
    how, right = read(cells)
    return how == "corrected" and not is_word(right)


def torn(whole, mask):
    """What a torn write leaves of a blank unit."""
    mask = (mask * 9)[:9] if mask else bytes(9)
    return bytes(0xFF & (byte | ~one) for byte, one in zip(whole, mask, strict=True))


class Corrected(PageTest):
    """The choice, and what then stands on the page."""

    def corrected(self):
        """Chooses flash with error correction."""
        self.b.click(CORRECTED)
        self.shows("#message", "The keyboard started anew, on a blank flash with error correction.")

    def cells(self, number):
        """The cells of a unit of page 0."""
        return bytes.fromhex(self.b.js(f"page.bytesHex(page.session.bench.device.unit(0, {number}).cells)"))

    def shown(self, row):
        """The cells of a row as they stand there, in the order of memory, and those that are marked."""
        classes = self.b.js(f"[...document.querySelector('{row}').children].map((one) => one.className)")
        rows = [classes[at:at + 8] for at in range(0, len(classes), 8)]
        rows = [rows[at] for at in (3, 2, 1, 0, 7, 6, 5, 4, 8)]
        cells = bytes(int("".join("1" if "one" in cell else "0" for cell in eight), 2) for eight in rows)
        return cells, sum("odd" in cell for cell in classes)

    def pixel(self, slot, second):
        """The colour in a unit of page 0, and those of the legend by their names."""
        return self.b.js(f"""(() => {{
            const canvas = document.querySelector("#pages canvas"), style = getComputedStyle(canvas);
            const at = [({slot} % 64) * 6 + 2, Math.floor({slot} / 64) * 9 + {5 if second else 3}];
            const g = new OffscreenCanvas(canvas.width, canvas.height).getContext("2d");
            g.drawImage(canvas, 0, 0);
            const colour = (text) => {{
                const one = new OffscreenCanvas(1, 1).getContext("2d");
                one.fillStyle = text;
                one.fillRect(0, 0, 1, 1);
                return [...one.getImageData(0, 0, 1, 1).data].join();
            }};
            const names = ["free", "live", "spoiled", "other"];
            const found = [...g.getImageData(...at, 1, 1).data].join();
            return names.find((name) => colour(style.getPropertyValue(`--slot-${{name}}`)) === found) ?? found;
        }})()""")

    def test_a_choice_of_the_flash(self):
        self.assertEqual([len(self.b.js(f"[...document.querySelector('{row}').children].map(() => 0)")) for row in ROWS], [32, 32])
        self.shows("#flash-note", re.compile("Each slot takes one write, .*"))
        self.corrected()
        self.shows("#flash-note", re.compile("Each slot takes two write units\\. A torn unit reads as an error or as less, never as another word\\. .*"))
        self.has("[...document.querySelectorAll('#flash-kind button')].map((one) => one.getAttribute('aria-pressed'))", ["false", "true"])
        self.assigned(0, 5)
        self.shows("#bits-says", "layer 0, key 0: B; units: a word; a word")
        whole = bytes.fromhex("05000010faffffef")
        self.assertEqual(self.shown(ROWS[0]), (unit(whole), 0))
        word = int.from_bytes(whole[:4], "little")
        beside = word ^ (word << 8 | word >> 24) & 0xFFFFFFFF
        self.assertEqual(self.shown(ROWS[1]), (unit(beside.to_bytes(4, "little") + (beside ^ 0xFFFFFFFF).to_bytes(4, "little")), 0))
        self.assertEqual((self.pixel(1, False), self.pixel(1, True), self.pixel(2, False)), ("live", "live", "free"))
        self.b.click("#cut")
        self.ledger("1 change confirmed, all of it is there")
        self.legend(0, "B")
        self.b.choose("#blank-pages", "8")
        self.b.click("#start-blank")
        self.has("[page.session.paired, page.session.bench.device.pages(), document.querySelectorAll('#pages canvas').length]", [True, 8, 8])
        self.b.click(PLAIN)
        self.shows("#message", "The keyboard started anew, on a blank flash without error correction.")
        self.has("[page.session.paired, document.querySelector('#bits-word').children.length, document.querySelector('#unit').disabled]", [False, 32, True])

    def test_images_and_scripts_are_of_plain_flash(self):
        buttons = "['save', 'load', 'compare'].map((one) => document.querySelector(`#image-${one}`)).map((one) => [one.disabled, one.title])"
        self.assertEqual(self.b.js(buttons), [[False, ""]] * 3)
        self.corrected()
        self.has(buttons, [[True, "Images are of plain flash alone."]] * 3)
        self.shows("#image-said", "Images are of plain flash alone.")
        self.tab("Script")
        self.has("page.session.paired", False)
        self.has(f"document.querySelector('{CORRECTED}').disabled", True)
        self.has(buttons, [[False, ""]] * 3)
        self.tab("Set keys")
        self.has(f"document.querySelector('{CORRECTED}').disabled", False)

    def bits_are_shown(self, units, reads):
        """The two units of page 0, slot 2, and how they read, stand in the picture of its bits."""
        self.shows("#bits-title", "Page 0, slot 2")
        self.shows("#bits-says", re.compile(f".+; units: {'; '.join(said(*one) for one in reads)}"))
        for row, (how, right), cells in zip(ROWS, reads, units, strict=True):
            self.assertEqual(self.shown(row), (cells, (int.from_bytes(right) ^ int.from_bytes(cells)).bit_count()))
            self.assertIn(how, self.b.js(f"document.querySelector('{row}').className").split())
            self.assertIn(f"it reads as {said(how, right)}.", self.b.js(f"document.querySelector('{row}').getAttribute('aria-label')"))

    def test_a_cut_inside_each_unit_write(self):
        """Each mask, in each of the two writes: the cells that it leaves, how they read, and what the keyboard makes of it."""
        self.corrected()
        first = unit(bytes.fromhex("1d000110e2fffeef"))  # layer 0, key 1: Z
        second = unit(bytes.fromhex("0d1d0111f2e2feee"))  # each byte of the word XOR the one before it
        masks = self.b.js("[...document.querySelectorAll('#mask option')].map((one) => one.value)")
        self.assertEqual(len(masks), 7)
        drawn, seen = random.Random(11), set()
        for number, mask in itertools.product((0, 1), masks):
            self.b.click("#start-blank")
            self.b.choose("#speed", "fast")
            self.assigned(0, 5)
            self.b.choose("#speed", "hand")
            self.b.choose("#unit", str(number))
            self.b.choose("#mask", mask)
            if mask == "own":
                self.b.choose("#mask-hex", next(one for one in iter(lambda: drawn.randbytes(9), b"") if mistaken(torn((first, second)[number], one))).hex())
            chosen = self.b.js("document.querySelector('#mask-hex').value")
            asked = self.assign(1, 29)
            self.writing()
            self.b.click("#cut-inside")
            self.bad(f"{asked}: the power or the bus went before it was confirmed.")
            left = torn((first, second)[number], bytes.fromhex(chosen) if chosen != "-" else b"")
            wanted = (left, BLANK) if number == 0 else (first, left)
            self.assertEqual((self.cells(4), self.cells(5)), wanted, (number, mask))
            reads = [read(cells) for cells in wanted]
            seen.add(said(*reads[number]))
            kept = number == 1 and reads[1][1] == second
            self.entry(0, 1, 29 if kept else 5)
            self.ledger("1 change confirmed, all of it is there")
            self.shows("#ledger-more", re.compile("1 power cut; compared [0-9]+ times\\." if kept else ".*is not there, and nothing else changed\\."))
            if wanted != (BLANK, BLANK):
                self.bits_are_shown(wanted, reads)
            self.b.choose("#speed", "fast")
            self.assigned(1, 29)
            self.entry(0, 1, 29)
            self.forget()
        self.assertLessEqual({"blank", "a word", "a word, one cell corrected", "no word, one cell corrected", "an error"}, seen)

    def test_a_torn_unit_that_is_an_error_is_seen(self):
        self.corrected()
        self.assigned(0, 5)
        self.b.choose("#unit", "1")
        self.b.choose("#mask", "55")
        self.b.click("#cut-inside")
        self.shows("#message", "Now set a key: the power goes inside its write.")
        self.bad(f"{self.assign(1, 29)}: the power or the bus went before it was confirmed.")
        self.shows("#bits-says", "spoiled: cut off; units: a word; an error")
        self.has(f"[...document.querySelectorAll('{', '.join(ROWS)}')].map((one) => one.classList.contains('error'))", [False, True])
        self.assertEqual((self.pixel(2, False), self.pixel(2, True)), ("other", "spoiled"))
        self.assertNotEqual(self.b.js("getComputedStyle(document.querySelector('.bits-row.error .zero')).backgroundColor"),
                            self.b.js("getComputedStyle(document.querySelector('.bits-row.word .zero')).backgroundColor"))
        self.legend(1, "B")
        self.ledger("1 change confirmed, all of it is there")
        self.b.screenshot(SHOTS / "play-corrected-cut.png")

    def test_units_are_read_as_the_code_says(self):
        """Random tears, and those of one cell and of all but one, against a reading that tries each cell."""
        drawn, whole = random.Random(7), unit(bytes.fromhex("1d000110e2fffeef"))
        one = [bytes(1 << (at % 8) if at // 8 == n else 0 for n in range(9)) for at in range(72)]
        masks = [*one, *(bytes(255 - byte for byte in mask) for mask in one), *(drawn.randbytes(9) for _ in range(200))]
        seen = [read(torn(whole, mask)) for mask in masks]
        found = self.b.js(f"{TORN}({[list(mask) for mask in masks]})")
        self.assertEqual(found, [[how, torn(whole, mask).hex(), right.hex()] for mask, (how, right) in zip(masks, seen, strict=True)])
        self.assertEqual({how for how, _ in seen}, {"blank", "word", "corrected", "error"})
        words = {right for how, _, right in found if how in ("word", "corrected") and is_word(bytes.fromhex(right))}
        self.assertEqual(words, {whole.hex()}, "never another word")

    def test_the_ledger_over_random_cuts(self):
        told = self.b.js(f"{CUTS}(1500)")
        self.assertIsNone(told["broken"])
        self.assertGreater(told["confirmed"], 500)
        self.assertGreater(told["cuts"], 500)
        self.assertLessEqual({"blank", "word", "corrected", "error"}, set(told["reads"]))
        NOTES.append(f"the ledger on flash with error correction: {told['confirmed']} commands confirmed, {told['cuts']} cuts, none broken")

    def test_every_cut_of_each_change(self):
        self.corrected()
        for kind, (count, cuts) in {"chosen": (2, "64"), "append": (1, "32"), "turnover": (386, "12,352"), "erase": (387, "12,384"), "migration": (5, "160")}.items():
            self.b.choose("#change", kind)
            self.b.click("#try")
            self.shows("#tried", re.compile(rf"{count} writes?, {cuts} cuts: [1-9][\d,]* as before, [1-9][\d,]* as after, 0 lost\."))
            self.has("document.querySelector('#try').disabled", False)
