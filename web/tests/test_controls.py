"""Every key, every code, every choice and every button that asks for a file, by what comes of it."""

import json
import re

from support import PageTest
from test_configure import keymap_file

# Presses every code of every kind, each for a key of its own, one after the other without a wait: what was asked for.
ASSIGN_ALL = """(() => {
    const asked = [];
    for (const group of document.querySelectorAll("#groups button")) {
        group.click();
        for (const code of document.querySelectorAll("#palette button")) {
            const at = asked.length, layer = Math.floor(at / 96), key = at % 96;
            document.querySelectorAll("#layers button")[layer].click();
            document.querySelector(`#keyboard button[data-key="${key}"]`).click();
            code.click();
            asked.push([layer, key, Number(code.dataset.code), code.getAttribute("aria-label")]);
        }
    }
    return asked;
})()"""
# Chooses every key of a picture, and gives what is then said of it.
CHOOSE_ALL = """[...document.querySelectorAll("#keyboard button")].map((button) => {
    button.click();
    page.model.draw();
    return [Number(button.dataset.key), document.querySelector("#chosen").textContent, button.getAttribute("aria-pressed")];
})"""


class Every(PageTest):
    """Play and Configure."""

    def test_each_code_for_a_key_of_its_own(self):
        self.b.choose("#picture", "3")
        self.has("document.querySelectorAll('#keyboard button').length", 96)
        asked = self.b.js(ASSIGN_ALL)
        layer, key, _, name = asked[-1]
        self.good(f"Set key {key} on layer {layer} to {name}: confirmed.")
        self.assertEqual(len({code for _, _, code, _ in asked}), len(asked), "no code stands twice")
        keymap = self.b.js("[...page.session.bench.device.keymap()]")
        self.assertEqual([keymap[96 * layer + key] for layer, key, _, _ in asked], [code for _, _, code, _ in asked])
        self.ledger(f"{len(asked)} changes confirmed, all of it is there")

    def test_each_key_of_each_picture(self):
        for number in range(4):
            self.b.choose("#picture", str(number))
            for key, said, pressed in self.b.js(CHOOSE_ALL):
                self.assertRegex(said, f"^Key {key} on layer 0: .+")
                self.assertEqual(pressed, "true")

    def test_each_layer(self):
        for layer in range(4):
            self.b.js(f"document.querySelector('#layers').children[{layer}].click()")
            self.shows("#chosen", re.compile(f"Key 0 on layer {layer}: .+"))
            self.assigned(0, 5 + layer)
            self.entry(layer, 0, 5 + layer)

    def test_each_mask_of_a_cut(self):
        """What happens of a torn write: of the bits that are to become 0 those that the mask has."""
        whole = bytes.fromhex("1d000110e2fffeef")  # the slot of layer 0, key 1: Z
        masks = self.b.js("[...document.querySelectorAll('#mask option')].map((one) => one.value)")
        self.assertEqual(len(masks), 7)
        for mask in masks:
            self.b.choose("#blank-pages", "2")
            self.b.click("#start-blank")
            self.b.choose("#speed", "fast")
            self.assigned(0, 5)
            self.b.choose("#speed", "hand")
            self.b.choose("#mask", mask)
            chosen = self.b.js("document.querySelector('#mask-hex').value")
            said = self.assign(1, 29)
            self.writing()
            self.b.click("#cut-inside")
            self.bad(f"{said}: the power or the bus went before it was confirmed.")
            takes = (bytes.fromhex(chosen) * 8)[:8] if chosen != "-" else bytes(8)
            self.assertEqual(self.slot(0, 2), bytes(0xFF & (byte | ~one) for byte, one in zip(whole, takes, strict=True)).hex(), mask)
            self.entry(0, 1, 29 if mask == "ff" else 5)
            self.ledger("1 change confirmed, all of it is there")
            self.forget()

    def test_each_number_of_blank_pages(self):
        for pages in range(2, 9):
            self.b.choose("#blank-pages", str(pages))
            self.b.click("#start-blank")
            self.has("page.session.bench.device.pages()", pages)
            self.has("document.querySelectorAll('#pages canvas').length", pages)

    def test_files_that_the_page_asks_for(self):
        """The buttons open the browser's own choice of a file."""
        self.chosen("#image-load", "blank.img", b"\xff" * 12288)
        self.shows("#image-said", "blank.img: it started on this image.")
        self.assertEqual(self.b.js("page.session.bench.device.pages()"), 3)
        self.chosen("#image-compare", "same.img", b"\xff" * 12288)
        self.shows("#image-said", "same.img: it is the same.")
        self.b.choose_file(lambda: self.b.choose("#picture", "file"), self.file("two.json", '[["0,0", "0,1"]]'))
        self.good("The picture two.json is shown.")
        self.has("document.querySelectorAll('#keyboard button').length", 2)
        self.view("Configure")
        self.chosen("#load", "loaded.json", json.dumps(keymap_file([(2, 7, 5)])))
        self.good("loaded.json is loaded: 1 entries were changed, and each was confirmed.")
        self.entry(2, 7, 5)
        self.view("Describe")
        self.chosen("#descriptor-load", "boot.bin", bytes.fromhex("05010906a101c0"))
        self.shows("#described", re.compile("7 bytes, 4 items, .*No fault\\."))

    def test_files_that_the_page_gives(self):
        self.assigned(3, 29)
        name, image = self.downloaded("#image-save")
        self.assertEqual((name, image[16:32]), ("flash.img", "1d000310e2fffcef"))
        self.assertEqual(image, self.b.js("page.bytesHex(page.session.bench.device.image())"))
        self.shows("#image-said", "The image was given to the browser.")
        self.view("Configure")
        name, text = self.downloaded("#save")
        self.assertEqual((name, json.loads(bytes.fromhex(text))), ("keymap.json", keymap_file([(0, 3, 29)])))

    def test_pressed_without_a_pointer(self):
        """Enter on a key of the picture presses it, as a click does."""
        self.tab("Type")
        for key in (0, 1):
            self.b.js(f"document.querySelector('#keyboard button[data-key=\"{key}\"]').focus()")
            self.b.press("Enter", "Enter", 13)
        self.shows("#typed", "ab")
