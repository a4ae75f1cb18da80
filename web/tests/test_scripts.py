"""Scripts: the page answers each line as kbsim does, examples and generated ones, readings too."""

import json
import re
import subprocess
import sys

from support import EXAMPLES, ROOT, SHOTS, PageTest, kbsim, quoted

sys.path.append(str(ROOT / "tools/export_rust"))
import scripts  # noqa: E402

COUNT = 500
# Runs scripts and gives what would be printed of each.
RUN = """((all) => all.map(([pages, text]) => {
    const bench = new page.Bench(pages);
    return page.readScript(text, pages).map((line) => `${line.number} ${line.run(bench)}\\n`).join("");
}))"""
FAULTS = ["scan 96", "scans 0", "scans 10001 1", "set 0 0 00g5", "set 0 0 5", "setup 2109", "out 112233445566778899", "entry 4 0", "slot 2 0", "slot 0 512", "scan 000001",
          "poll 1", "workfault", "workfault 0", "cutwork " + "00" * 4097, "nothing", "scan " + "1 " * 97, " # no comment", "in\r\r", "leds 0", "entry 0 -1", "set 0 0 0005 1"]


def printed(program, pages, text):
    """What kbsim prints."""
    return subprocess.run([program, "run", "--pages", str(pages)], input=text.encode(), stdout=subprocess.PIPE, stderr=subprocess.DEVNULL).stdout.decode()


def generated(number):
    """A script: every second one fetches the report descriptor first, so that its reports are read."""
    pages, text = scripts.script(number)
    return pages, ("fetch\n" if number % 2 else "") + text


class Compared(PageTest):
    """The answers beside those of kbsim."""

    def test_generated_scripts(self):
        program, made = kbsim(), [generated(number) for number in range(COUNT)]
        answers = readings = 0
        for at in range(0, COUNT, 50):
            part = made[at:at + 50]
            for number, ((pages, text), found) in enumerate(zip(part, self.b.js(f"{RUN}({json.dumps(part)})"), strict=True), at):
                wanted = printed(program, pages, text)
                if found != wanted:
                    lines = zip(found.splitlines(), wanted.splitlines())
                    self.fail(f"script {number}: {next(((one, other) for one, other in lines if one != other), 'another length')}")
                answers, readings = answers + wanted.count("\n"), readings + wanted.count(" read ")
        self.assertGreater(readings, 1000)
        self.note(f"{COUNT} generated scripts, {answers} answers, {readings} of them readings: none differs from kbsim's")

    def test_faults(self):
        program = kbsim()
        for line in FAULTS:
            text = f"poll\n{line}\n"
            with self.subTest(line):
                found = self.b.js(f"(() => {{ try {{ page.readScript({quoted(text)}, 2); return 'none'; }} catch (fault) {{ return fault.message; }} }})()")
                self.assertEqual(found, printed(program, 2, text).splitlines()[-1])

    def note(self, text):
        """Keeps a line for the end."""
        from support import NOTES
        NOTES.append(text)


class Examples(PageTest):
    """The repository's examples on the page."""

    def lines(self):
        """What was printed, with the numbers of the lines."""
        return [f"{number} {line}" for number, line in enumerate(self.b.text("#script-out").split("\n"), 1) if line]

    def test_each_is_run_and_prints_what_is_expected(self):
        self.tab("Script")
        for script in sorted(EXAMPLES.glob("*.kbs")):
            with self.subTest(script.stem):
                self.b.choose("#examples", script.stem)
                self.b.click("#script-run")
                self.becomes(self.lines, script.with_suffix(".expected").read_text().splitlines())
                self.has("document.querySelector('#script-run').disabled", True)
                self.ledger(re.compile("Set a key, then cut the power|Nothing was lost|[0-9]+ changes? confirmed, all of it is there|Writing: not confirmed yet"))

    def test_steps_back_and_again(self):
        self.tab("Script")
        self.b.choose("#examples", "turnover")
        for _ in range(7):
            self.b.click("#script-step")
        self.becomes(lambda: len(self.lines()), 7)
        before, torn = self.b.text("#script-out"), self.slot(1, 0)
        for button in ("step", "step", "back", "back"):
            self.b.click(f"#script-{button}")
        self.shows("#script-out", before)
        self.assertEqual(self.slot(1, 0), torn)
        self.b.screenshot(SHOTS / "play-script.png")
        self.b.click("#script-start")
        self.becomes(self.lines, [])
        self.has("document.querySelector('#script-back').disabled", True)

    def test_a_script_of_ones_own_and_its_fault(self):
        self.tab("Script")
        self.b.choose("#script", "set 0 0 0005\nnonsense\n")
        self.shows("#script-said", "fault line 2: unknown word")
        self.has("document.querySelector('#script-run').disabled", True)
        self.b.choose("#script", "set 0 0 0005\nentry 0 0\n")
        self.b.click("#script-run")
        self.becomes(self.lines, ["1 ack", "2 0005"])
        self.legend(0, "B")
        # It keeps its text, and goes on where it was.
        self.tab("Type")
        self.tab("Script")
        self.assertEqual(self.b.js("document.querySelector('#script').value"), "set 0 0 0005\nentry 0 0\n")
        self.assertEqual(self.lines(), ["1 ack", "2 0005"])
        self.legend(0, "B")

    def test_a_script_has_a_keyboard_of_its_own(self):
        self.assigned(0, 6)
        self.b.click("#cut")
        self.ledger("1 change confirmed, all of it is there")
        bus = self.b.text("#log")
        self.tab("Script")
        self.ledger("Set a key, then cut the power")
        self.b.click("#script-run")
        self.has("document.querySelector('#script-run').disabled", True)
        self.tab("Set keys")
        self.legend(0, "C")
        self.ledger("1 change confirmed, all of it is there")
        self.assertTrue(self.b.text("#log").startswith(bus))
        # A command that is under way goes on when its keyboard is there again.
        self.b.choose("#speed", "hand")
        said = self.assign(1, 7)
        self.writing()
        self.tab("Script")
        self.legend(0, "B")
        self.tab("Set keys")
        self.b.choose("#speed", "fast")
        self.good(f"{said}: confirmed.")
        self.view("Configure")
        self.legend(0, "C")


