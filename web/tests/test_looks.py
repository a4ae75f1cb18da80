"""How the page looks and sounds: names, roles, the order of focus, contrasts, layout shift, widths, and pictures for a person."""

import re

from support import PageTest, ROOT, SHOTS, page_in_sight

LOOKS = (ROOT / "web/tests/looks.js").read_text()
# What moved since the last mark: how far, whether input came before, and what.
SHIFTS = """(() => {
    const entries = [], observer = new PerformanceObserver((list) => entries.push(...list.getEntries()));
    let since = 0;
    observer.observe({ type: "layout-shift", buffered: true });
    globalThis.mark = () => (since = performance.now());
    globalThis.shifted = () => {
        entries.push(...observer.takeRecords());
        return entries.filter(({ value, startTime }) => value > 0 && startTime >= since)
            .map(({ value, hadRecentInput, sources }) => [value, hadRecentInput, sources.map(({ node }) => node?.id || node?.className || node?.nodeName).join(" ")]);
    };
})();
"""
THEMES = {"light": False, "dark": True}
PLACES = [("Play", "Set keys"), ("Play", "Type"), ("Play", "Script"), ("Configure", ""), ("Describe", "")]
WIDTHS = {360: 780, 900: 1100, 1600: 1000}
# Roles that a name is needed for (WAI-ARIA 1.2, section 5.2.8.4 and others).
NAMED = {"button", "combobox", "textbox", "tab", "tabpanel", "img", "group", "tablist", "application", "region", "progressbar", "image"}


class Looks(PageTest):
    """Every view and tab."""

    def open(self, file):
        """Opens a file of the page, with what measures it."""
        super().open(file)
        self.b.js(f"globalThis.looks = {LOOKS}; true")

    def places(self, filled=False):
        """Each view and tab in each theme, one after the other."""
        for theme, dark in THEMES.items():
            self.b.dark(dark)
            if filled:
                self.fill_in()
            for view, tab in PLACES:
                self.go(view, tab)
                yield view, tab, f"{view} {tab}, {theme}"

    def go(self, view, tab):
        """Goes to a view and a tab."""
        self.view(view)
        if tab:
            self.tab(tab)

    def fill_in(self):
        """Brings everything onto the page that has a colour: confirmed keys, a broken write, a refusal, tries."""
        self.go("Play", "Set keys")
        self.b.choose("#speed", "fast")
        self.b.choose("#blank-pages", "2")
        self.b.click("#start-blank")
        self.forget()
        self.assigned(0, 5)
        self.b.js("page.session.bench.set(0, 1, 6); page.session.bench.set(1, 2, 0x40e9)")
        self.b.choose("#change", "migration")
        self.b.click("#try")
        self.has("document.querySelector('#try').disabled", False)
        self.shows("#tried", re.compile(".* 0 lost\\."))
        self.b.choose("#speed", "hand")
        self.assign(20, 29)
        self.writing()
        self.ledger(re.compile("Writing.*"))

    def correct(self):
        """Brings flash with error correction onto the page, with a unit that reads as an error, and one that is corrected."""
        self.go("Play", "Set keys")
        self.b.choose("#speed", "fast")
        self.b.click("#flash-kind button:nth-child(2)")
        self.assigned(0, 5)
        for unit, mask in (("0", "ffffff7fffffffffff"), ("1", "55")):
            self.b.choose("#unit", unit)
            self.b.choose("#mask", mask)
            self.b.click("#cut-inside")
            self.bad(f"{self.assign(1, 29)}: the power or the bus went before it was confirmed.")
            self.forget()
        self.shows("#bits-says", "spoiled: cut off; units: a word; an error")

    def test_contrast_in_every_view_and_theme(self):
        for view, _, place in self.places(filled=True):
            self.assertEqual(self.b.js("looks.faint()"), [], place)
            if view == "Describe":
                self.b.choose("#descriptor", "05 01 c0")
                self.assertEqual(self.b.js("looks.faint()"), [], place)
                self.b.click("#own-descriptor")
        for theme, dark in THEMES.items():
            self.b.dark(dark)
            self.correct()
            self.assertEqual(self.b.js("looks.faint()"), [], f"flash with error correction, {theme}")

    def test_names_and_roles(self):
        for view, tab, place in self.places():
            nodes = [node for node in self.b.call("Accessibility.getFullAXTree")["nodes"] if not node["ignored"]]
            nameless = [node["role"]["value"] for node in nodes if node["role"]["value"] in NAMED and not node.get("name", {}).get("value", "").strip()]
            self.assertEqual(nameless, [], place)
            roles = {node["role"]["value"] for node in nodes}
            self.assertLessEqual({"tab", "tablist", "tabpanel", "main", "banner", "contentinfo", "heading", "button"}, roles, place)
            self.assertTrue({"generic button", "clickable"}.isdisjoint(roles), place)
            selected = [node["name"]["value"] for node in nodes if node["role"]["value"] == "tab" for one in node["properties"] if one["name"] == "selected" and one["value"]["value"]]
            self.assertEqual(selected, [view] + ([tab] if tab else []), place)

    def test_names_of_the_units(self):
        self.correct()
        nodes = [node for node in self.b.call("Accessibility.getFullAXTree")["nodes"] if not node["ignored"]]
        self.assertEqual([node["role"]["value"] for node in nodes if node["role"]["value"] in NAMED and not node.get("name", {}).get("value", "").strip()], [])
        named = {node["name"]["value"] for node in nodes if node["role"]["value"] in {"image", "img", "group", "combobox", "button"}}
        self.assertLessEqual({"Which flash", "Plain", "With error correction", "Unit"}, named)
        for unit, reads in (("first", "a word"), ("second", "an error")):
            self.assertTrue(any(re.fullmatch(f"The cells of the {unit} unit, its check last, [0-9a-f]{{18}}: it reads as {reads}\\. A filled one is 0", name) for name in named), named)

    def test_what_tab_reaches_and_that_it_is_seen(self):
        for *_, place in self.places():
            stops = self.b.js("looks.stops()")
            self.b.js("document.activeElement.blur(), window.getSelection().removeAllRanges(), looks.first('#views').focus()")
            reached = [self.b.js("looks.focused()")[0]]
            unseen = []
            for _ in range(len(stops) - 1):
                self.b.press("Tab", "Tab", 9)
                name, seen = self.b.js("looks.focused()")
                reached.append(name)
                unseen += [] if seen else [name]
            self.assertEqual(reached, stops, place)
            self.assertEqual(unseen, [], place)
            self.assertLess(len(stops), 40, "rows of keys and codes are one stop each")

    def test_a_key_is_set_and_cut_by_the_keyboard_alone(self):
        self.b.js("looks.first('#keyboard').focus()")
        for _ in range(4):
            self.b.press("ArrowDown", "ArrowDown", 40)
        self.b.press("ArrowRight", "ArrowRight", 39)
        self.b.press("Enter", "Enter", 13)
        chosen = self.shows("#chosen", re.compile("Key [1-9][0-9]* on layer 0: .+"))
        self.b.js("looks.first('#palette').focus()")
        for _ in range(2):
            self.b.press("ArrowRight", "ArrowRight", 39)
        code = int(self.b.js("document.activeElement.dataset.code"))
        self.b.press("Enter", "Enter", 13)
        key = int(chosen.split()[1])
        self.good(re.compile(f"Set key {key} on layer 0 to .+: confirmed\\."))
        self.b.js("document.querySelector('#cut').focus()")
        self.b.press("Enter", "Enter", 13)
        self.has("page.session.ledger.cuts", 1)
        self.ledger("1 change confirmed, all of it is there")
        self.entry(0, key, code)

    def test_every_legend_fits_its_key(self):
        """Each code that is offered stands on a key of one unit, on each computer."""
        self.b.choose("#picture", "3")
        codes = self.b.js("page.PALETTE.flatMap(([, codes]) => codes)")
        for width in WIDTHS:
            self.b.size(width, WIDTHS[width])
            for at in range(0, len(codes), 96):
                self.b.js(f"{codes[at:at + 96]}.forEach((code, key) => page.session.bench.set(0, key, code))")
                self.frame()
                self.assertEqual(self.b.js("looks.broken()"), [], width)
        self.b.size(1600, WIDTHS[1600])

    def pictures(self, width):
        """Keeps a picture of each view and tab at a width, dark and light, where nothing is cut, sticks out or is too small."""
        self.b.size(width, WIDTHS[width])
        self.open(page_in_sight())
        for theme, dark in THEMES.items():
            self.b.dark(dark)
            self.fill_in()
            for view, tab in PLACES:
                self.go(view, tab)
                name = f"{width}-{theme}-{view}{'-' + tab if tab else ''}".lower().replace(" ", "-")
                with self.subTest(name):
                    self.assertEqual({at: self.b.js(f"looks.{at}()") for at in ("wide", "cut", "narrow", "broken", "small")}, dict.fromkeys(("wide", "cut", "narrow", "broken", "small"), []))
                    self.b.js("scrollTo(0, 0)")
                    self.b.screenshot(SHOTS / f"{name}.png", whole=True)
            self.correct()
            with self.subTest(f"{width}, {theme}, flash with error correction"):
                self.assertEqual({at: self.b.js(f"looks.{at}()") for at in ("wide", "cut", "narrow", "broken", "small")}, dict.fromkeys(("wide", "cut", "narrow", "broken", "small"), []))
                self.b.js("scrollTo(0, 0)")
                self.b.screenshot(SHOTS / f"{width}-{theme}-play-corrected.png", whole=True)
            self.b.click("#flash-kind button:nth-child(1)")

    def test_pictures_narrow(self):
        self.pictures(360)

    def test_pictures_between(self):
        self.pictures(900)

    def test_pictures_wide(self):
        self.pictures(1600)


class OnAPhone(PageTest):
    """A window of 390 pixels."""

    def setUp(self):
        super().setUp()
        self.b.size(390, 844)
        self.open(page_in_sight())

    def test_the_picture_fits_and_ledger_and_power_switch_are_in_reach(self):
        self.assertEqual(self.b.js("document.querySelector('#keyboard').scrollWidth - document.querySelector('#keyboard').clientWidth"), 0)
        self.assertGreater(self.b.js("Math.min(...[...document.querySelectorAll('#keyboard button')].map((one) => one.getBoundingClientRect().height))"), 30)
        for tab in ("Set keys", "Type", "Script"):
            self.tab(tab)
            for place in ("#keyboard", f"#panel-{tab.split()[0].lower()}", "#pages", "#log"):
                self.b.js(f"document.querySelector({place!r}).scrollIntoView({{ block: 'center' }})")
                for within in ("#ledger-head", "#cut", "#cut-inside"):
                    seen = "((e, b) => e.contains(document.elementFromPoint(b.left + b.width / 2, b.top + b.height / 2)))"
                    self.assertTrue(self.b.js(f"((e) => {seen}(e, e.getBoundingClientRect()))(document.querySelector({within!r}))"), f"{within}, {tab}, at {place}")

    def test_a_key_is_set_and_the_power_cut(self):
        self.assigned(0, 5)
        self.b.click("#cut")
        self.ledger("1 change confirmed, all of it is there")
        self.b.screenshot(SHOTS / "390-play.png")


class Ways(PageTest):
    """Ways from the page to what is written beside it."""

    def test_documents_are_there_and_the_licence_is_on_the_page(self):
        links = self.b.js("[...document.querySelectorAll('footer a')].map((one) => one.getAttribute('href'))")
        self.assertGreater(len(links), 4)
        for link in links:
            self.assertTrue((ROOT / "web" / link).resolve().is_file(), link)
        self.b.js("document.querySelector('footer summary').click()")
        self.shows("footer pre", (ROOT / "LICENSE-MIT").read_text().strip())


class Shifts(PageTest):
    """Nothing jumps."""

    before = SHIFTS

    def shifted(self):
        """What moved since the last mark, whether input came before or not."""
        self.frame()
        return self.b.js("new Promise((done) => setTimeout(() => done(shifted()), 100))")

    def mark(self):
        """What moved up to now was meant: another view is shown."""
        self.frame()
        self.b.js("mark()")

    def opened_and_used(self, width):
        """Opens and uses the page at a width, dark and light: nothing moves."""
        self.b.size(width, WIDTHS[width])
        for dark in THEMES.values():
            self.b.dark(dark)
            self.open(page_in_sight())
            with self.subTest(dark=dark):
                self.assertEqual(self.shifted(), [])
                self.use_play()
                self.assertEqual(self.shifted(), [])
                self.view("Configure")
                self.mark()
                self.b.js("document.querySelector('#read-all').click()")
                self.shows("#progress-text", re.compile("384 entries read in .*"))
                self.assertEqual(self.shifted(), [])
                self.view("Describe")
                self.mark()
                for text in ("05 01", "05 01 c0", ""):
                    self.b.choose("#descriptor", text)
                self.assertEqual(self.shifted(), [])

    def test_narrow(self):
        self.opened_and_used(360)

    def test_between(self):
        self.opened_and_used(900)

    def test_wide(self):
        self.opened_and_used(1600)

    def use_play(self):
        """What a user does in Play, without input that would excuse a shift."""
        self.b.js("""(async () => {
            const click = async (selector) => {
                document.querySelector(selector).click();
                await new Promise((done) => setTimeout(done, 35));
            };
            for (const selector of ['#keyboard button[data-key="3"]', '#palette button[data-code="7"]', '#groups button:nth-child(2)', '#palette button[data-code="33"]', '#groups button:nth-child(8)',
                '#cut', '#cut-inside', '#bus-reset', '#layers button:nth-child(2)', '#undo', '#reset-layer', '#reset-all', '#try', '#flash-kind button:nth-child(2)', '#palette button:nth-child(3)', '#cut-inside', '#palette button:nth-child(4)',
                '#flash-kind button:nth-child(1)', '#flash-kind button:nth-child(2)', '#try']) await click(selector);
        })()""")
        self.shows("#tried", re.compile(".* 0 lost\\."))
