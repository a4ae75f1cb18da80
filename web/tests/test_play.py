"""Play: a user sets keys, cuts the power, types, and looks at the flash."""

import re

from support import PageTest, SHOTS


class Cuts(PageTest):
    """Cuts of what is written."""

    def test_a_cut_inside_a_write(self):
        self.assigned(0, 5)
        self.b.choose("#speed", "hand")
        self.assign(1, 29)
        self.ledger(re.compile("Writing.*"))
        self.has("document.querySelector('#keyboard button[data-key=\"1\"]').classList.contains('waiting')", True)
        self.b.screenshot(SHOTS / "play-waiting.png")
        self.b.click("#cut-inside")
        self.bad("Set key 1 on layer 0 to Z: the power or the bus went before it was confirmed.")
        self.ledger("1 change confirmed, all of it is there")
        self.shows("#ledger-more", re.compile(".*What was under way is not there.*"))
        self.assertEqual(self.slot(0, 2), "1d000110ffffffff")
        self.shows("#bits-title", "Page 0, slot 2")
        self.shows("#bits-says", "spoiled: cut off")
        self.legend(1, "B")
        self.b.screenshot(SHOTS / "play-cut-inside.png")

    def test_a_cut_that_waits_for_the_next_write(self):
        self.assigned(0, 5)
        self.b.click("#cut-inside")
        self.shows("#message", "Now set a key: the power goes inside its write.")
        self.has("document.querySelector('#cut-inside').getAttribute('aria-pressed')", "true")
        self.bad(f"{self.assign(1, 29)}: the power or the bus went before it was confirmed.")
        self.assertEqual(self.slot(0, 2), "1d000110ffffffff")
        self.ledger("1 change confirmed, all of it is there")
        self.has("document.querySelector('#cut-inside').getAttribute('aria-pressed')", "false")
        self.assigned(1, 29)
        self.b.click("#cut-inside")
        self.b.click("#cut-inside")
        self.shows("#message", "The next write is not cut.")
        self.assigned(2, 7)
        self.has("page.session.ledger.cuts", 1)

    def test_a_mask_of_ones_own(self):
        self.b.choose("#speed", "hand")
        self.b.choose("#mask", "own")
        self.b.choose("#mask-hex", "0g")
        self.b.click("#cut-inside")
        self.bad("The mask: it is no hex of 1 to 4,096 bytes, nor a -.")
        self.assertEqual(self.b.js("page.session.ledger.cuts"), 0)
        self.assign(0, 5)
        self.writing()
        self.b.choose("#mask-hex", "ff")
        self.b.click("#cut-inside")
        self.has("page.session.ledger.cuts", 1)
        self.ledger("Nothing was lost")

    def test_by_hand_and_slowly(self):
        self.b.choose("#speed", "hand")
        self.b.click("#step")
        self.shows("#message", "No command works: nothing is to be written.")
        said = self.assign(0, 5)
        self.writing()
        for step in ("a header", "a record"):
            self.assertIsNotNone(self.b.js("page.session.ledger.pending"), step)
            self.b.click("#step")
        self.good(f"{said}: confirmed.")
        self.b.choose("#speed", "slow")
        self.assigned(1, 6)
        self.entry(0, 1, 6)

    def test_a_bus_reset_ends_a_transfer_and_not_the_write(self):
        self.b.choose("#speed", "hand")
        said = self.assign(0, 5)
        self.writing()
        self.b.click("#bus-reset")
        self.bad(f"{said}: the power or the bus went before it was confirmed.")
        self.b.js("while (page.session.bench.work() === 'working');")
        self.entry(0, 0, 5)
        self.ledger("Nothing was lost")

    def test_compactions_with_power_losses_between(self):
        self.b.js("""for (let n = 0; n < 560; n++) {
            page.session.bench.set(n % 4, n % 96, 0x4001 + n);
            if (n % 37 === 0) document.querySelector('#cut').click();
        }""")
        self.ledger("560 changes confirmed, all of it is there")
        self.assertEqual(self.b.js("page.session.bench.device.active()"), 1)
        self.b.screenshot(SHOTS / "play-turnover.png")


class Keys(PageTest):
    """The picture of the keys, and what the computer types."""

    def test_undo_and_resets(self):
        self.assigned(0, 5)
        self.b.click("#undo")
        self.good("Set key 0 on layer 0 back to A: confirmed.")
        self.entry(0, 0, 4)
        self.has("document.querySelector('#undo').disabled", True)
        self.assigned(2, 0x40E9, "Media")
        self.b.js("document.querySelector('#layers').children[1].click()")
        self.assigned(3, 0x5002, "Layers")
        self.b.click("#reset-layer")
        self.good("Reset layer 1: confirmed.")
        self.entry(1, 3, 1)
        self.entry(0, 2, 0x40E9)
        self.b.click("#undo")
        self.good("Set key 3 on layer 1 back to layer 2 while held: confirmed.")
        self.entry(1, 3, 0x5002)
        self.b.click("#reset-all")
        self.good("Reset all layers: confirmed.")
        self.entry(0, 2, 6)
        self.entry(1, 3, 1)

    def test_legends_go_by_the_computer(self):
        shown = {"US": ["A", "Y", ":\n;", "@\n2"], "UK": ["A", "Y", ":\n;", '"\n2'], "German": ["A", "Z", "Ö", '"\n2'], "French": ["Q", "Y", "M", "2\né"]}
        for layout, legends in shown.items():
            self.b.choose("#host-layout", layout)
            for key, legend in zip((0, 24, 47, 27), legends, strict=True):
                self.legend(key, legend)

    def test_pictures(self):
        for number, (name, keys) in enumerate({"ANSI 87": 87, "ISO 88": 88, "60 %": 61, "Matrix": 96}.items()):
            self.b.choose("#picture", str(number))
            self.shows(f"#picture option[value='{number}']", name)
            self.has("new Set([...document.querySelectorAll('#keyboard button')].map((one) => one.dataset.key)).size", keys)

    def test_a_picture_of_kle_and_one_of_via(self):
        self.drop("#picture-file", "split.json", '[{"name": "split"}, ["0,0", {"x": 2, "w": 1.5}, "0,1"], [{"r": 15, "rx": 4, "ry": 1}, "2\\n\\n\\n0,0", "3\\n\\n\\n0,1"]]')
        self.good("The picture split.json is shown.")
        self.has("[...document.querySelectorAll('#keyboard button')].map((one) => [one.dataset.key, one.style.transform])", [["0", ""], ["1", ""], ["2", "rotate(15deg)"]])
        self.drop("#picture-file", "via.json", '{"name": "v", "matrix": {"rows": 6, "cols": 16}, "layouts": {"keymap": [["5,15"], [{"h": 2}, "1,0"]]}}')
        self.good("The picture via.json is shown.")
        self.has("[...document.querySelectorAll('#keyboard button')].map((one) => Number(one.dataset.key))", [95, 16])

    def test_typing(self):
        self.tab("Type")
        self.b.click("#screen")
        for name, code, number in (("h", "KeyH", 72), ("i", "KeyI", 73)):
            self.b.press(name, code, number)
        self.shows("#typed", "hi")
        self.b.click('#keyboard button[data-key="0"]')
        self.shows("#typed", "hia")
        self.b.click('#keyboard button[data-key="89"]', modifiers=8)  # Shift and a click hold the left Shift key down
        self.b.click('#keyboard button[data-key="1"]')
        self.shows("#typed", "hiaB")
        self.shows("#reads", "It reads: Keyboard LeftShift")
        self.b.screenshot(SHOTS / "play-type.png")
        self.b.click('#keyboard button[data-key="89"]')
        self.shows("#reads", "It reads that nothing is pressed.")
        self.b.click('#keyboard button[data-key="53"]')  # Caps Lock
        self.has("[...document.querySelectorAll('.led.on')].map((one) => one.textContent)", ["Caps Lock"])
        self.b.click('#keyboard button[data-key="0"]')
        self.shows("#typed", "hiaBA")
        self.b.click("#clear")
        self.shows("#typed", "")

    def test_what_is_pressed_between_two_ticks_stays_in_order(self):
        """However late the clock is, each press and release is seen, one after the other."""
        self.tab("Type")
        self.b.js("""(() => {
            const down = (type, code) => document.querySelector("#screen").dispatchEvent(new KeyboardEvent(type, { code, key: code, cancelable: true }));
            for (const letter of "WUZHIKAR") for (const type of ["keydown", "keyup"]) down(type, `Key${letter}`);
            down("keydown", "ShiftLeft");
            down("keydown", "KeyA");
            down("keyup", "ShiftLeft");
            down("keyup", "KeyA");
            for (const type of ["keydown", "keyup", "keydown", "keyup"]) down(type, "KeyB");
        })()""")
        self.shows("#typed", "wuzhikarAbb")

    def test_a_layer_while_it_is_held(self):
        self.b.js("page.session.bench.set(0, 40, 0x5001); page.session.bench.set(1, 0, 0x40e9)")
        self.tab("Type")
        self.b.click('#keyboard button[data-key="40"]', modifiers=8)
        self.b.click('#keyboard button[data-key="0"]')
        self.has("[...document.querySelectorAll('#log .said')].map((one) => one.textContent).filter((said) => /Volume|nothing/.test(said))", ["Volume Increment", "nothing pressed"])


class Flash(PageTest):
    """The flash and its image."""

    def test_the_bits_of_a_slot_by_arrow_keys(self):
        self.assigned(0, 5)
        self.b.js("document.querySelector('#pages canvas').focus()")
        self.shows("#bits-says", "layer 0, key 0: B")
        self.shows("#bits-hex", "05000010 faffffef")
        zeros = self.b.js("[...document.querySelector('#bits-word').children].map((one) => one.className === 'zero' ? 0 : 1).join('')")
        self.assertEqual(int(zeros, 2), 0x10000005)
        self.b.press("ArrowLeft", "ArrowLeft", 37)
        self.shows("#bits-says", "header, sequence 1, format 2")

    def test_reports_that_say_the_same_are_one_line(self):
        """A cut leaves the idle rate of 500 ms that a keyboard begins with, so it repeats its reports."""
        self.b.click("#cut")
        lines = "document.querySelectorAll('#log div').length"
        self.has("[...document.querySelectorAll('#log div')].some((one) => /[3-9] × nothing pressed$/.test(one.textContent))", True)
        before = self.b.js(lines)
        self.b.js("(() => { for (let n = 0; n < 300; n++) page.session.beat(); })()")
        self.frame()
        self.assertEqual(self.b.js(lines), before)

    def test_packets_have_names(self):
        self.assigned(0, 5)
        lines = self.b.js("[...document.querySelectorAll('#log div')].map((one) => [...one.children].map((span) => span.textContent))")
        self.assertIn(["setup", "SET_REPORT feature 3", "ack"], lines)
        self.assertIn(["out", "set layer 0, key 0: B", "ack"], lines)
        self.assertIn(["flash", "a step", "settled"], lines)
        self.assertEqual(lines[-1], ["in", "empty packet", "done"])

    def test_images(self):
        image = self.b.js("page.bytesHex(page.imageOf([[page.headerWord(2, 9), page.recordWord(0, 0, 0x1d)], [], []]))")
        self.drop("#image-file", "other.img", bytes.fromhex(image))
        self.shows("#image-said", "other.img: it started on this image.")
        self.assertEqual(self.b.js("page.session.bench.device.pages()"), 3)
        self.entry(0, 0, 0x1D)
        self.legend(0, "Z")
        self.drop("#compare-file", "same.img", bytes.fromhex(image))
        self.shows("#image-said", "same.img: it is the same.")
        self.b.js("page.session.bench.set(0, 0, 5)")
        self.drop("#compare-file", "before.img", bytes.fromhex(image))
        self.shows("#image-said", re.compile("before.img: 1 slot and 1 of 384 entries differ.*"))
        self.b.screenshot(SHOTS / "play-compare.png", whole=True)
        self.b.choose("#blank-pages", "4")
        self.b.click("#start-blank")
        self.has("page.session.bench.device.pages()", 4)
        self.entry(0, 0, 4)


class EveryCut(PageTest):
    """Every cut of a change, on each kind of flash."""

    def test_each_kind(self):
        for kind, (count, cuts) in {"chosen": (2, "64"), "append": (1, "32"), "turnover": (386, "12,352"), "erase": (387, "12,384"), "migration": (5, "160")}.items():
            self.b.choose("#change", kind)
            self.b.click("#try")
            told = self.shows("#tried", re.compile(rf"{count} writes?, {cuts} cuts: [1-9][\d,]* as before, [1-9][\d,]* as after, 0 lost\."))
            self.has("document.querySelector('#try').disabled", False)
            self.has("document.querySelector('#tries').getAttribute('aria-label')", f"A column for each write, a cell for each way that it was torn. {told}")
            if kind == "erase":
                self.b.screenshot(SHOTS / "play-every-cut.png")
