"""Configure: the keymap of a keyboard that WebHID gives, played here, and of the simulated one."""

import json
import re

from support import PageTest, ROOT, SHOTS, page_in_sight

PLAYED = (ROOT / "web/tests/played_hid.js").read_text()


def keymap_file(changes=(), **members):
    """A keymap as a file: the default but for some entries (layer, key, code)."""
    layers = [[f"{4 + key if key < 88 else 0xe0 + key - 88:04x}" for key in range(96)]] + [["0001"] * 96 for _ in range(3)]
    for layer, key, code in changes:
        layers[layer][key] = f"{code:04x}"
    return {"format": "wuzhikar-keymap", "version": 1, "layers": layers, **members}


class Configured(PageTest):
    """Both kinds of keyboards."""

    before = PLAYED

    def setUp(self):
        super().setUp()
        self.view("Configure")

    def connect(self, setup=""):
        """Chooses a played keyboard."""
        self.b.js(f"(() => {{ const device = played.offer(new played.Played()); {setup} }})()")
        self.b.click("#connect")

    def connected(self):
        """Waits until its keymap is read."""
        self.good(re.compile(r".*Played keyboard is connected\..*"))

    def load(self, file, name="keymap.json"):
        """Loads a file of a keymap."""
        self.drop("#load-file", name, file if isinstance(file, (str, bytes)) else json.dumps(file))

    def played_entry(self, layer, key, wanted):
        """Waits until an entry of the played keyboard has a code."""
        self.has(f"played.device.device.keymap()[{96 * layer + key}]", wanted)

    def sent(self, operation):
        """How many commands of a kind the played keyboard was sent."""
        return f"played.device.sent.filter(([one]) => one === {operation}).length"


class OnUsb(Configured):
    """A keyboard on USB."""

    def test_connect_read_assign(self):
        self.connect()
        self.connected()
        self.assertEqual(self.b.js("played.asked"), [{"usagePage": 0xFF00, "usage": 1}])
        self.assertEqual(self.b.js("played.device.sent.length"), 384)
        self.shows("#progress-text", re.compile(r"384 entries read in [\d,]+ ms"))
        self.shows("#device", "Played keyboard")
        self.assigned(10, 6)
        self.played_entry(0, 10, 6)
        self.entry(0, 10, 14)  # the simulated one is another
        self.legend(10, "C")
        self.b.screenshot(SHOTS / "configure-usb.png")
        self.b.click("#undo")
        self.good("Set key 10 on layer 0 back to K: confirmed.")
        self.played_entry(0, 10, 14)
        self.assigned(11, 0x40E9, "Media")
        self.b.click("#reset-layer")
        self.good("Reset layer 0: confirmed.")
        self.played_entry(0, 11, 15)
        self.b.click("#reset-all")
        self.good("Reset all layers: confirmed.")
        self.b.click("#connect")
        self.shows("#device", "Simulated keyboard")
        self.has("played.device.opened", False)

    def test_what_it_refuses_is_explained(self):
        self.connect()
        self.connected()
        self.b.js("played.device.mask = new Uint8Array(1)")
        self.assign(10, 7)
        self.bad("Set key 10 on layer 0 to D: the keyboard refused it, and USB does not tell why: its flash failed, is worn or damaged, or the cable.")
        self.played_entry(0, 10, 14)
        self.legend(10, "K")
        self.b.js("played.device.mask = null")
        for layer, key, code, why in ((4, 0, 5, "BadLayer (8)"), (0, 96, 5, "BadKey (9)"), (0, 0, 3, "BadCode (10)")):
            self.assertIn(why, self.b.js(f"page.model.keyboard.command(1, {layer}, {key}, {code}).then(() => 'taken', (error) => error.message)"))
        self.assertIn(self.b.js(self.sent(1)), range(8, 16), "a refusal may only say later: it is sent again, for five seconds")

    def test_a_keyboard_with_a_pace_is_tried_again(self):
        """Behind a stack that keeps endpoint 0 a command that comes too soon is a stall."""
        self.connect()
        self.connected()
        self.b.js("""(() => {
            const { device } = played, send = device.sendFeatureReport;
            let next = 0;
            device.sendFeatureReport = async function (id, data) {
                if (data[0] > 0 && performance.now() < next) throw new DOMException("Failed to write the feature report.", "NotAllowedError");
                await send.call(this, id, data);
                if (data[0] > 0) next = performance.now() + 300;
            };
        })()""")
        self.load(keymap_file([(0, key, 0x4001 + key) for key in range(5)]))
        self.good("keymap.json is loaded: 5 entries were changed, and each was confirmed.")

    def test_one_transfer_after_the_other(self):
        """Commands and reads that are asked for at once: on USB no transfer begins before the one before is over."""
        asks = "[[one.command(1, 0, 0, 5), one.read(0, 0), one.command(1, 0, 1, 6), one.read(0, 1), one.read(3, 0), one.command(2, 0, 0, 0), one.read(0, 1)]]"
        told = "Promise.all(asks[0].map((ask) => ask.then((code) => code ?? 'stored', (error) => error.message)))"
        wanted = ["stored", 5, "stored", 6, 1, "stored", 5]
        self.assertEqual(self.b.js(f"(() => {{ const one = page.model.simulated, asks = {asks}; return {told}; }})()"), wanted)
        self.connect("""
            let busy = 0;
            device.most = 0;
            for (const name of ["sendFeatureReport", "receiveFeatureReport"]) {
                const call = device[name];
                device[name] = async function (...given) {
                    this.most = Math.max(this.most, ++busy);
                    await new Promise((done) => setTimeout(done));
                    try { return await call.apply(this, given); } finally { busy--; }
                };
            }""")
        self.connected()
        self.assertEqual(self.b.js(f"(() => {{ const one = page.model.keyboard, asks = {asks}; return {told}; }})()"), wanted)
        self.assertEqual(self.b.js("played.device.most"), 1)

    def test_a_host_that_gave_up_is_no_refusal(self):
        """A host waits 5 s for a transfer. The page's clock goes on by as much."""
        self.connect()
        self.connected()
        self.b.js("""(() => {
            const now = performance.now.bind(performance), { device } = played;
            let later = 0;
            performance.now = () => now() + later;
            device.sendFeatureReport = async () => { later += 5000; throw new DOMException("Failed to write the feature report.", "NotAllowedError"); };
        })()""")
        self.assign(10, 7)
        self.bad("Set key 10 on layer 0 to D: the keyboard did not confirm it in time: each entry is the old one or the new one. Read all to see which.")
        self.b.click("#read-all")
        self.bad("Reading: the keyboard did not answer in time.")

    def test_answers_that_are_none(self):
        """A device that is none of this kind: its answers are looked at before they are shown or saved."""
        for answer, why in (("3, 0, 0, 0, 0xff, 0xff", "the keyboard answered FFFFh, which is no code"), ("3, 0, 0, 0, 2, 0", "the keyboard answered 0002h, which is no code"),
                            ("3, 1, 0, 0, 4, 0", "another program selected an entry meanwhile; read again"), ("3, 0, 1, 0, 4, 0", "another program selected an entry meanwhile; read again"),
                            ("3, 0, 0, 1, 4, 0", "another program selected an entry meanwhile; read again"), ("3", "another program selected an entry meanwhile; read again")):
            self.connect(f"device.receiveFeatureReport = async () => new DataView(Uint8Array.of({answer}).buffer);")
            self.bad(f"Reading: {why}.")
            self.shows("#progress-text", "Not all entries were read")
            self.b.click("#connect")
            self.shows("#device", "Simulated keyboard")
            self.forget()
        self.connect("device.collections = [{ usagePage: 0xff00, usage: 1 }];")
        self.bad("Connecting: this device has no feature report 3.")

    def test_nothing_chosen_and_another_device(self):
        self.b.click("#connect")
        self.bad(re.compile(".*no keyboard was chosen.*"))
        self.connect("device.collections = [{ usagePage: 1, usage: 6, featureReports: [{ reportId: 3 }] }];")
        self.bad("Connecting: this device has no feature report 3.")
        self.shows("#device", "Simulated keyboard")

    def test_opening_that_the_system_refuses_shows_the_rule(self):
        self.connect("device.shut = true;")
        self.bad(re.compile(r".*the system did not let the browser open it \(NotAllowedError\).*"))
        self.has("document.querySelector('#udev').hidden", False)
        self.shows("#udev-rule", 'KERNEL=="hidraw*", SUBSYSTEM=="hidraw", ATTRS{idVendor}=="1209", ATTRS{idProduct}=="0001", TAG+="uaccess"')
        self.shows("#udev", re.compile(".*lets every program of the user who is logged in at the machine read each key.*"))
        self.b.screenshot(SHOTS / "configure-refused.png")
        self.b.js("played.device.shut = false")
        self.b.click("#connect")
        self.connected()
        self.has("document.querySelector('#udev').hidden", True)

    def test_it_goes_away_and_comes_back(self):
        self.connect()
        self.connected()
        self.b.js("played.unplug(played.device)")
        self.bad(re.compile(".*Played keyboard was unplugged.*"))
        self.shows("#device", "Simulated keyboard")
        self.b.js("played.plug(played.device)")
        self.connected()

    def test_it_goes_away_while_it_is_read(self):
        self.connect("const receive = device.receiveFeatureReport; let count = 0; device.receiveFeatureReport = async function (id) { if (++count === 100) { played.unplug(this); throw new DOMException('gone', 'NotAllowedError'); } return receive.call(this, id); };")
        self.shows("#progress-text", "Not all entries were read")
        self.shows("#device", "Simulated keyboard")
        self.legend(0, "A")

    def test_a_device_that_was_granted_before_comes_back(self):
        self.before = PLAYED + "played.device = new played.Played(); played.grant(played.device);"
        self.open(page_in_sight())
        self.has("played.device.sent.length", 384)
        self.view("Configure")
        self.shows("#which", "These are the keys of Played keyboard, on USB.")

    def test_a_load_that_is_cut_goes_on(self):
        changes = [(0, key, 0x4001 + key) for key in range(20)] + [(3, 95, 5)]
        self.connect("device.cutAt = 8;")
        self.connected()
        self.load(keymap_file(changes, name="mine"))
        self.bad(re.compile(r".*was unplugged.*7 of 21 changes of keymap\.json were confirmed.*"))
        self.b.screenshot(SHOTS / "configure-cut.png")
        self.b.js("played.plug(played.device)")
        self.has("document.querySelector('#message').textContent.includes('was not loaded to its end')", True)
        now = self.b.js("[...played.device.device.keymap()]")
        self.assertEqual([now[key] for key in range(7)], [0x4001 + key for key in range(7)], "what was confirmed is there")
        self.assertEqual(now[8:20], list(range(12, 24)), "what was not sent is not")
        sent = self.b.js(self.sent(1))
        self.b.click("#resume")
        self.good(re.compile(r"keymap\.json is loaded.*"))
        more = self.b.js(self.sent(1)) - sent
        self.assertIn(more, (13, 14), "only what differs is sent")
        self.assertEqual(self.b.js("[...played.device.device.keymap()]")[:21], [0x4001 + key for key in range(20)] + [24])
        self.played_entry(3, 95, 5)
        self.has("document.querySelector('#resume').disabled", True)


class Simulated(Configured):
    """The simulated keyboard, where there is no device."""

    def test_an_answer_for_another_entry_is_none(self):
        for place in (2, 3):
            self.assertEqual(self.b.js(f"""(async () => {{
                const {{ bench }} = page.session, asked = bench.in.bind(bench);
                bench.in = () => {{
                    const answer = asked();
                    if (answer.bytes?.length) answer.bytes[{place}] ^= 1;
                    return answer;
                }};
                return page.model.simulated.read(0, 0).then(String, (error) => error.message).finally(() => delete bench.in);
            }})()"""), "another program selected an entry meanwhile; read again")

    def test_the_page_says_which_it_is(self):
        self.shows("#which", "These are the keys of the simulated keyboard. Connect a real one to set its keys.")
        self.shows("#situation", re.compile(".*comes back by itself.* A choice from a file is for all files\\."))
        said = self.b.js("[page.situation(null, 'https:'), page.situation({}, 'https:')]")
        self.assertIn("This browser has no WebHID", said[0])
        self.assertIn("comes back by itself", said[1])

    def test_read_all_and_a_file_there_and_back(self):
        self.assigned(0, 5)
        self.b.click("#read-all")
        self.shows("#progress-text", re.compile("384 entries read.*"))
        text = self.b.js("page.keymapText(page.session.bench.device.keymap(), 'mine')")
        self.assertEqual(json.loads(text), keymap_file([(0, 0, 5)], name="mine"))
        name, saved = self.downloaded("#save")
        self.assertEqual((name, bytes.fromhex(saved).decode()), ("keymap.json", self.b.js("page.keymapText(page.session.bench.device.keymap())")))
        self.b.click("#reset-all")
        self.good("Reset all layers: confirmed.")
        self.entry(0, 0, 4)
        self.load(text)
        self.good("keymap.json is loaded: 1 entries were changed, and each was confirmed.")
        self.entry(0, 0, 5)
        self.load(text)
        self.good(re.compile(".*nothing was sent\\."))

    def test_files_that_are_no_keymaps(self):
        good = keymap_file()
        text = json.dumps(good, indent=1)
        cases = {
            "it is no object, at line 1, column 1": "[]",
            '"version" is missing, at line 1, column 1': json.dumps({"format": "wuzhikar-keymap", "layers": []}),
            '"format" stands twice, at line 2, column 31': text.replace('"format": "wuzhikar-keymap",', '"format": "wuzhikar-keymap", "format": "wuzhikar-keymap",'),
            '"more" is no member of a keymap, at line 1, column 2': '{"more": 1, ' + json.dumps(good)[1:],
            'its format is not "wuzhikar-keymap", at line 1, column 12': json.dumps({**good, "format": "other"}),
            "its version is 2, and this page knows version 1, at line 1, column 42": json.dumps({**good, "version": 2}),
            '"version" is no number': json.dumps({**good, "version": "1"}),
            "it has 3 layers, not 4": json.dumps({**good, "layers": good["layers"][:3]}),
            "layer 1 is no list of 96 codes": json.dumps({**good, "layers": [good["layers"][0], [], *good["layers"][2:]]}),
            '"0003" is no code, at line 1, column 57': json.dumps({**good, "layers": [["0003", *good["layers"][0][1:]], *good["layers"][1:]]}),
            '"5" is no code': json.dumps({**good, "layers": [[5, *good["layers"][0][1:]], *good["layers"][1:]]}),
            '"name" is no string': json.dumps({**good, "name": 1}),
            "this is no JSON: a value is missing, at line 1, column 12": '{"format": ',
            "this is no JSON": text.replace(",", ";", 1),
            "something follows the value": text + "1",
            "it is no text in UTF-8": b'{"name": "\xff"}',
            "it has 70,000 bytes, and a keymap at most 65,536": " " * 70000,
            "values stand more than 16 deep": "[" * 5000,
        }
        before = self.b.js("[...page.session.bench.device.keymap()]")
        for wanted, file in cases.items():
            with self.subTest(wanted):
                self.forget()
                self.load(file)
                self.bad(re.compile(rf"keymap\.json is no keymap: .*{re.escape(wanted)}.* Nothing was sent\."))
        self.assertEqual(self.b.js("[...page.session.bench.device.keymap()]"), before)
        self.assertEqual(self.b.js("page.session.ledger.confirmed"), 0)

    def test_a_file_is_taken_where_the_tool_takes_it(self):
        """The rows of rust/keymap/src/file/tests.rs."""
        text = json.dumps(keymap_file(), indent=1)
        named = lambda name: text.replace("{", '{"name": "' + name + '",', 1)
        version = lambda number: text.replace('"version": 1', f'"version": {number}')
        rows = [("\ufeff" + text, ""), ("\ufeff\ufeff" + text, "a value is missing, at line 1, column 1"), (" \ufeff" + text, "a value is missing, at line 1, column 2"),
                (named(r"\ud83d\ude00"), ""), (named(r"\ud800"), "half of a surrogate pair stands alone, at line 1, column 10"), (named(r"\udc00"), "half of a surrogate pair"),
                (named(r"\ud800\u0041"), "half of a surrogate pair"), (version("1.000000000000000000000000"), ""), (version("100e-2"), ""),
                (version("0.9999999999999999"), "its version is 0.9999999999999999"), (version("0.99999999999999999999"), ""),
                (json.dumps(["wuzhikar-keymap", 1, keymap_file()["layers"]]), "it is no object")]
        for file, why in rows:
            with self.subTest(file[:40]):
                self.forget()
                self.load(file)
                if why:
                    self.bad(re.compile(rf".*: .*{re.escape(why)}.* Nothing was sent\."))
                else:
                    self.good(re.compile(".*nothing was sent\\."))

    def test_the_key_tester(self):
        self.b.click("#tester")
        self.b.press("a", "KeyA", 65)
        self.b.wait("[...document.querySelectorAll('#tester-log li')].some((one) => one.textContent.startsWith('Keyboard a and A report 010001…'))")
        self.b.wait("[...document.querySelectorAll('#tester-log li')].some((one) => one.textContent.startsWith('released'))")
        self.b.screenshot(SHOTS / "configure-simulated.png")
        self.b.click("#tester-clear")
        self.has("document.querySelectorAll('#tester-log li').length", 0)
        self.connect()
        self.connected()
        self.b.click("#tester")
        self.b.press("q", "KeyQ", 81)
        self.b.wait("[...document.querySelectorAll('#tester-log li')].map((one) => one.textContent).join('|') === 'KeyQ down types \"q\"|KeyQ up types \"q\"'")
        self.b.js("""played.device.dispatchEvent(Object.assign(new Event("inputreport"), { reportId: 2, data: new DataView(Uint8Array.of(0xe9, 0, 0, 0, 0, 0, 0, 0).buffer) }))""")
        self.b.wait("document.querySelector('#tester-log').textContent.endsWith('Volume Increment report 2')")
        self.b.js("""played.device.dispatchEvent(Object.assign(new Event("inputreport"), { reportId: 2, data: new DataView(new ArrayBuffer(1)) }))""")
        self.b.wait("document.querySelector('#tester-log').textContent.endsWith('no report of this keyboard report 2')")
