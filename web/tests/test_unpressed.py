"""Run last: what stands on the page and no test pressed."""

import unittest

import support
from support import PRESSED, PageTest
from test_looks import PLACES


class Unpressed(PageTest):
    """Every button, every choice of a select, every field."""

    last = True

    def there(self):
        """All controls, in every view and tab, with every kind of codes and every picture of the page's own."""
        found = set()
        for view, tab in PLACES:
            self.view(view)
            if tab:
                self.tab(tab)
            found.update(self.b.js("controls.there()"))
        self.view("Play")
        self.tab("Set keys")
        for row in ("#groups", "#layers"):
            for number in range(self.b.js(f"document.querySelector('{row}').children.length")):
                self.b.js(f"document.querySelector('{row}').children[{number}].click()")
                self.frame()
                found.update(self.b.js("controls.there()"))
        for number in range(4):
            self.b.choose("#picture", str(number))
            self.frame()
            found.update(self.b.js("controls.there()"))
        self.b.click("#flash-kind button:nth-child(2)")
        self.has("page.session.paired", True)
        found.update(self.b.js("controls.there()"))
        return found

    def test_no_control_was_left_out(self):
        if not support.WHOLE:
            raise unittest.SkipTest("not every test is run")
        pressed, there = set(PRESSED), self.there()
        self.assertEqual(sorted(there - pressed), [])
        for control in ("button#cut", "#views Describe", "#tabs Script", "#groups Media", "#palette code 4", "#keyboard key 95", "select#mask own", "select#mask ffffff7fffffffffff", "select#unit 1", "#flash-kind Plain", "input#load-file", "textarea#descriptor"):
            self.assertIn(control, there)
        support.NOTES.append(f"{len(there)} buttons, choices and fields, each used by a test")

    def test_a_button_that_no_test_pressed_is_reported(self):
        self.b.js("document.querySelector('#describe').after(Object.assign(document.createElement('button'), { textContent: 'More' }))")
        self.b.js("document.querySelector('#speed').append(new Option('never'))")
        self.assertLessEqual({"#describe-view More", "select#speed never"}, self.there() - set(PRESSED))
