"""Scripts for `kbsim`, made from a number: the same number gives the same script on every machine.

They hold what `kbsim` serves: of control requests SET_REPORT of the feature report and SET_PROTOCOL to boot protocol.
"""

import random

SET_FEATURE = "setup 2109030300000600"
BOOT_PROTOCOL = "setup 210b000000000000"

# The equal samples in a row that change a key.
SAMPLES = 5

# Codes of each kind, and numbers that are none.
CODES = ["0000", "0001", "0004", "0029", "00a4", "00e0", "00e7", "4001", "40e9", "43ff", "5001", "5002", "5003"]
NO_CODES = ["0002", "0003", "00a5", "00df", "00e8", "4000", "4400", "5000", "5004", "ffff"]


# Codes that no default entry has.
CONSUMER = [f"4{number:03x}" for number in range(1, 64)]


class Script:
    """A script that grows line by line."""

    def __init__(self, number):
        self.random = random.Random(number)
        self.pages = self.random.choice([2, 2, 2, 3, 8])
        self.held = set()
        self.round = 0
        self.lines = []

    def text(self):
        return "\n".join(self.lines) + "\n"

    def add(self, *words):
        self.lines.append(" ".join(str(word) for word in words))

    def one_of(self, choices):
        return self.random.choice(choices)

    def below(self, end):
        return self.random.randrange(end)

    def mask(self):
        """A mask, often of one byte."""
        length = self.one_of([0, 1, 1, 1, 2, 8, 64])
        return "".join(f"{self.one_of([0x00, 0xff, 0x0f, 0x55, self.below(256)]):02x}" for _ in range(length)) or "-"

    def code(self):
        return self.one_of(CODES) if self.below(8) else self.one_of(NO_CODES + [f"{self.below(65536):04x}"])

    def layer(self):
        return self.below(4) if self.below(20) else self.below(256)

    def key(self):
        return self.one_of([0, 1, 2, 3, 40, 88, 95, self.below(96)]) if self.below(20) else self.below(256)

    # Events

    def scan(self):
        """A key more or less, seen for a while, perhaps with a bounce."""
        if self.below(3):
            self.held ^= {self.one_of([0, 1, 2, 3, 40, 88, 95, self.below(96)])}
        keys = sorted(self.held)
        if self.below(3):
            self.add("scans", self.one_of([1, 2, 4, 5, 6, 9, 30, 499, 500, 501]), *keys)
        else:
            self.add("scan", *keys)

    def poll(self):
        for _ in range(1 + self.below(4)):
            self.add("poll")

    def boot(self):
        self.add(BOOT_PROTOCOL)
        if self.below(5):
            self.add("in")

    def set(self):
        self.add("set", self.layer(), self.key(), self.code())

    def feature(self):
        """A transfer of the feature report by its packets, with other events in between."""
        self.add(SET_FEATURE)
        self.add("out", self.packet())
        for _ in range(self.below(6)):
            self.one_of([self.work, self.work, self.look, self.scan, self.poll, self.status])()
        self.status()

    def packet(self):
        """The data packet, mostly a command, sometimes of a wrong length or Report ID. Operation 0 is not one of `kbsim`'s."""
        code = self.code()
        operation = self.one_of([1, 1, 1, 1, 2, 3, 4, 1 + self.below(255)])
        packet = f"03{operation:02x}{self.layer():02x}{self.key():02x}{code[2:]}{code[:2]}"
        return self.one_of([packet] * 12 + [packet[:8], packet + "00", "04" + packet[2:], packet[:2]])

    def status(self):
        self.add(self.one_of(["in", "in", "in", "out", "out 00"]))

    def work(self):
        if self.below(4):
            for _ in range(1 + self.below(3)):
                self.add("work")
        else:
            self.add("workfault", self.mask())

    def cut(self):
        if self.below(2):
            self.add("cut")
        else:
            self.add("cutwork", self.mask())

    def look(self):
        if self.below(2):
            self.add("entry", self.below(4), self.below(96))
        else:
            self.add("slot", self.below(self.pages), self.one_of([0, 1, 2, 3, self.below(512)]))

    def fill(self, count):
        """So many appends, no two of an entry with the same code: 511 fill a blank page, 127 one that was turned over."""
        for n in range(count):
            self.add("set", n // 96 % 4, n % 96, CONSUMER[n // 384 + self.round])
        self.round += 2

    def turn(self):
        """A command that turns a full page over, step by step, with faults, and perhaps cut off."""
        self.add(SET_FEATURE)
        self.add("out", f"0301{self.below(4):02x}{self.below(96):02x}0600")
        for _ in range(self.one_of([self.below(10), self.below(400), 390])):
            if self.below(80):
                self.add("work")
            else:
                self.add("workfault", self.mask())
        self.one_of([self.work, self.cut, self.status, self.status])()
        self.add("in")


    def events(self):
        """The events that are chosen from."""
        more = [self.work, self.cut, self.look, self.boot]
        return [self.scan] * 5 + [self.poll] * 4 + [self.set] * 3 + [self.feature] * 3 + more


# Requests that the keyboard serves, and some that it doesn't: bmRequestType, bRequest, wValue, wIndex, wLength.
REQUESTS = ["8006000100001200", "8006000200002200", "8006000200000900", "810600210000{:02x}00", "810600220000{:02x}00",
            "a10101010000{:02x}00", "a10102010000{:02x}00", "a101010300000600", "a101030300000600", "a101020200000100",
            "a102010000000100", "a102000000000100", "a103000000000100", "210a00{:02x}00000000", "210a01{:02x}00000000",
            "210b000000000000", "210b010000000000", "2109010200000100", "2109030300000600", "0005070000000000",
            "0009010000000000", "8000000000000200", "8006060000000a00", "2109010200000200", "2109030300000500",
            "810600230000ff00", "21090303{:02x}000600", "210b{:02x}0000000000", "a101010100000000"]


class Whole(Script):
    """A script of all lines of the language, and now and then a line with a fault."""

    def request(self):
        """A SETUP packet with the packets of its transfer, or other ones."""
        packet = self.one_of(REQUESTS).format(self.below(256))
        if self.below(30) == 0:
            packet = self.random.randbytes(8).hex()
        self.add("setup", packet)
        for _ in range(self.one_of([0, 1, 1, 2, 3, 14])):
            self.add(*self.one_of([["in"]] * 6 + [["out"], ["out", self.random.randbytes(1 + self.below(8)).hex()]]))

    def leds(self):
        self.add("setup", "2109010200000100")
        self.add("out", f"01{self.below(256):02x}" if self.below(2) else f"{self.below(32):02x}")
        self.add("in")
        self.add("leds")

    def fault(self):
        """A line that is refused, or nearly so."""
        lines = ["scan 96", "scan 095", "scans 0 1", "scans 10001", "work 1", "cut  ", "press 1", "entry 4 0", "slot 8 0",
                 "set 0 0 005", "set 256 0 0005", "setup 21090303000006", "out 001122334455667788", "workfault", "workfault 0",
                 "poll poll", "leds 1", "fetch x", "in -1", "entry 0 100000", "", "# nothing", " #", "reset 0", "cutwork gg"]
        self.add(self.one_of(lines))

    def events(self):
        more = [lambda: self.add("reset"), lambda: self.add("fetch"), lambda: self.add("leds"), self.leds, self.fault]
        return super().events() * 2 + [self.request] * 8 + more[:-1] * 2 + more[-1:] * (self.below(3) == 0)


# Of a few requests, what a host sends that has them right, or wrong in one place.
READS = ["8006000100001200", "8006000200004000", "8106002100000900", "810600220000ff00", "a101010100001700", "a101020100000900",
         "a101000100000800", "a101000100004000", "a101010200000200", "a101000200000100", "a101030300000600"]
LEDS = [("2109010200000200", "01{:02x}"), ("2109000200000100", "{:02x}"), ("2109010200000200", "02{:02x}")]
SETS = ["210a00{:02x}00000000", "210a01{:02x}00000000", "210a02{:02x}00000000", "210a03{:02x}00000000", "210a01{:02x}00000100",
        "210b000000000000", "210b010000000000", "210b000000000100", "210b010000000000", "a102030000000100", "210b010001000000"]


class Lawful(Whole):
    """A script of all lines of the language, none of which has a fault, with more of what a host sends right."""

    def fault(self):
        """A line that says nothing, or is written in an odd way."""
        self.add(self.one_of(["", "# nothing", " \t", "scan 005", "scans 00003  ", "\tpoll ", "entry 003 00095"]))

    def read(self):
        """A read to its end, and one packet more."""
        self.add("setup", self.one_of(READS))
        for _ in range(self.one_of([1, 2, 3, 4, 5, 14])):
            self.add("in")
        self.add("out")

    def leds(self):
        packet, data = self.one_of(LEDS)
        self.add("setup", packet)
        self.add("out", data.format(self.below(256)))
        self.add("in")
        self.add("leds")

    def settings(self):
        """An idle value or a protocol, in most cases with its status stage."""
        self.add("setup", self.one_of(SETS).format(self.one_of([0, 1, 2, 125, self.below(256)])))
        self.add(self.one_of(["in", "in", "in", "poll", "reset"]))
        self.poll()

    def select(self):
        """Selects an entry, and reads it."""
        self.add(SET_FEATURE)
        self.add("out", f"0300{self.layer():02x}{self.key():02x}{self.below(65536):04x}")
        self.add("in")
        self.add("setup", "a101030300000600")
        self.add("in")

    def burst(self):
        """More changes than the queue of reports has room for."""
        for _ in range(self.one_of([3, 8, 9, 12])):
            self.held ^= {self.one_of([0, 1, 40, 88, self.below(96)])}
            self.add("scans", SAMPLES, *sorted(self.held))
        for _ in range(self.below(12)):
            self.add("poll")

    def idle(self):
        """An idle value, and polls about the moment when it has passed."""
        value = self.one_of([1, 2, 10, 255])
        self.add("setup", f"210a0{self.below(3)}{value:02x}00000000")
        self.add("in")
        for _ in range(3):
            self.poll()
            self.add("scans", 4 * value + self.one_of([-1, 0, 0, 1]), *sorted(self.held))
        self.poll()

    def layering(self):
        """Keys that hold layers, often two of them the same one, and what other keys say meanwhile."""
        layer = 1 + self.below(3)
        for key in (0, 1):
            self.add("set", 0, key, f"500{self.one_of([layer, layer, 1 + self.below(3)])}")
        self.add("set", layer, 2, self.one_of(CODES))
        for _ in range(self.one_of([4, 8, 12])):
            self.held ^= {self.one_of([0, 1, 2, 2, 40])}
            self.add("scans", SAMPLES, *sorted(self.held))
            self.add("poll")

    def events(self):
        more = [self.leds, self.settings, self.settings, self.idle, self.select, self.burst, self.layering]
        return super().events() + [self.read] * 3 + more


def word(chance, format_1):
    """A word of 32 bits as a page may hold it: mostly a command, sometimes nearly one."""
    operation = chance.choice([1] * 12 + [2, 3, chance.randrange(16)])
    layer, key = (chance.randrange(end) if chance.randrange(12) else chance.randrange(256) for end in (4, 96))
    code = int(chance.choice(CODES if chance.randrange(6) else NO_CODES), 16)
    if format_1 and chance.randrange(2):
        code = 0x4000 + chance.choice([chance.randrange(16), chance.randrange(0x2000)])
    if operation != 1 and chance.randrange(6):
        code = key = 0
    if operation == 3 and chance.randrange(6):
        layer = 0
    return operation << 28 | (layer & 15) << 24 | key << 16 | code


def header(chance):
    """A header's word, mostly of format 2, now and then with the last sequence number."""
    sequence = chance.choice([1, 2, 3, chance.randrange(1 << 28), (1 << 28) - 1, (1 << 28) - 1])
    return chance.choice([1, 1, 2, 2, 2, chance.randrange(16)]) << 28 | sequence


def slot(chance, word):
    """A slot with this word: Good, now and then torn, and rarely anything."""
    good = word | (word ^ 0xffffffff) << 32
    if not chance.randrange(12):
        good |= chance.getrandbits(64)
    return (good if chance.randrange(60) else chance.getrandbits(64)).to_bytes(8, "little")


def image(number):
    """The bytes of a flash as power cuts, older firmware or anybody may have left it."""
    chance = random.Random(f"image {number}")
    pages = []
    for _ in range(chance.choice([2, 2, 3, 8])):
        used = chance.choice([0, 1, 2, 20, 126, 500, 510, 511, 512])
        first = header(chance)
        slots = [slot(chance, first) if n == 0 else slot(chance, word(chance, first >> 28 == 1)) for n in range(used)]
        slots += [b"\xff" * 8] * (512 - used)
        pages.append(b"".join(slots))
    return b"".join(pages)


def script(number, kind=Script):
    """The script of this number: its page count and its text."""
    made = kind(number)
    events = made.events()
    turns = number % 25 == 0
    if turns:
        made.fill(511)
    for n in range(20 + made.below(60)):
        if turns and n % 5 == 0:
            made.turn()
        elif turns and n % 16 == 8:
            made.fill(127)
        else:
            made.one_of(events)()
    return made.pages, made.text()
