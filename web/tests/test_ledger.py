"""The ledger, and every cut, on the page's core; and that each of three broken cores is found out by the same tests."""

import json

import broken_core
from support import NOTES, PageTest, compiler_is_there, kbsim, page_in_sight
from test_scripts import RUN, generated, printed

COUNT, FIRST = 200, 5000
# Runs scripts under the ledger: what it counted, and the first event after which the keymap was another one.
JUDGED = """((all) => all.map(([pages, text]) => {
    let ledger;
    const bench = new page.Bench(pages, (what, bytes, said) => ledger.event(bench, what, bytes, said));
    ledger = new page.Ledger(bench.device.keymap());
    for (const line of page.readScript(text, pages)) line.run(bench);
    return { confirmed: ledger.confirmed, cuts: ledger.cuts, checks: ledger.checks, broken: ledger.broken };
}))"""
# Cuts an append in each of the 256 ways of a mask of one byte.
APPENDED = """(async () => {
    const [device, entry] = page.prepared("append");
    return (await page.everyCut(device, entry, Array.from({ length: 256 }, (_, mask) => [Uint8Array.of(mask), 0]))).counts;
})()"""


class Judged(PageTest):
    """Each test is a method that answers what is wrong, so that broken cores go through the same."""

    def ledgers(self, count=COUNT):
        """What the ledger says of random scripts with cuts."""
        return self.b.js(f"{JUDGED}({json.dumps([generated(number) for number in range(FIRST, FIRST + count)])})")

    def differing(self, count=20):
        """Random scripts that are not answered as kbsim answers them."""
        made = [generated(number) for number in range(FIRST, FIRST + count)]
        found = self.b.js(f"{RUN}({json.dumps(made)})")
        return [number for number, (script, text) in enumerate(zip(made, found, strict=True)) if printed(kbsim(), *script) != text]


class Right(Judged):
    """The page's own core."""

    def test_the_ledger_over_random_scripts_with_cuts(self):
        ledgers = self.ledgers()
        self.assertEqual([one["broken"] for one in ledgers if one["broken"]], [])
        totals = {word: sum(one[word] for one in ledgers) for word in ("confirmed", "cuts", "checks")}
        self.assertGreater(totals["confirmed"], 1000)
        self.assertGreater(totals["cuts"], 500)
        NOTES.append(f"the ledger over {COUNT} random scripts: {totals['confirmed']} commands confirmed, {totals['cuts']} cuts, {totals['checks']} comparisons, none broken")

    def test_every_one_byte_mask(self):
        self.assertEqual(self.b.js(APPENDED), {"before": 255, "after": 1, "lost": 0})

    def test_the_ledger_sees_what_is_lost(self):
        """Entry by entry: a keymap that is another one in a single code breaks it, at that event."""
        self.assertEqual(self.b.js("""(() => {
            const { bench, ledger } = page.session, before = ledger.broken;
            bench.set(0, 0, 5);
            bench.device.restore(new page.Device(2).snapshot());
            bench.cut();
            return [before, ledger.broken];
        })()"""), [None, "cut"])
        self.ledger("The keymap is not what the computer was told")


class Broken(Judged):
    """Cores that are broken on purpose."""

    def with_core(self, name):
        """Opens the page with a broken core."""
        compiler_is_there()
        self.open(page_in_sight(broken_core.built(name), name))

    def tearDown(self):
        self.b.said = []

    def test_a_cut_that_forgets(self):
        self.with_core("cut_that_forgets")
        self.assertIn("cut", [one["broken"] for one in self.ledgers(20)])
        self.assertNotEqual(self.differing(), [])
        self.assigned(0, 5)
        self.b.click("#cut")
        self.ledger("The keymap is not what the computer was told")

    def test_a_changed_answer(self):
        self.with_core("changed_answer")
        self.assertNotEqual(self.differing(), [])

    def test_an_assignment_that_is_lost_for_exactly_one_mask(self):
        self.with_core("lost_for_one_mask")
        counts = self.b.js(APPENDED)
        self.assertEqual(counts["lost"], 1, counts)
