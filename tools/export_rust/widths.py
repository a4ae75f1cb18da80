"""Refuses what is proved at 64 bits and may mean something else at 32, by the types that rustc gives.

rustc writes each function as steps between places with types (`--emit mir`). A `usize` has the same value on a chip if it counts
what lies in memory, if its step makes no larger number, or if types bound what is added and multiplied: constants, a u8, a u16.
Every other step that computes a `usize` is refused, and each cast of a wider number to one, but of a number that the types bound
or that was found to be below a `usize`.
"""

import re

MOST = 2 ** 32 - 1
LARGEST = {"bool": 1, "u8": 2 ** 8 - 1, "u16": 2 ** 16 - 1, "char": 0x10FFFF, "u32": MOST, "usize": MOST}
NO_LARGER = {"Sub", "SubWithOverflow", "Div", "Rem", "BitAnd"}
CALLS_NO_LARGER = {"saturating_sub", "div_ceil"}
GROWING = {"Add": int.__add__, "AddWithOverflow": int.__add__, "Mul": int.__mul__, "MulWithOverflow": int.__mul__}
WIDE = ("usize", "isize", "(usize, bool)", "(isize, bool)", "")

COMPUTES = re.compile(r"((?:Add|Sub|Mul|Div|Rem|BitXor|BitAnd|BitOr|Shl|Shr|Not|Neg)(?:WithOverflow|Unchecked)?)\((.*)\)$")
CAST = re.compile(r"(.*) as (\w+) \(IntToInt\)$")
CALL = re.compile(r"(.*?)\(((?:copy|move|const) .*)\) -> ")
FROM = re.compile(r"<usize as (?:\w+::)*From<(\w+)>>::from|<(\w+) as (?:\w+::)*Into<usize>>::into")
# Calls that compute with a number of a machine's width, or make one of another.
WIDE_CALL = re.compile(r"<impl [iu]size>::(\w+)|<&?(?:[iu]size|[A-Z]) as (?:\w+::)*(?:Add|Sub|Mul|Div|Rem|Bit\w+|Sh[lr]|Not|Neg|Sum|Product|"
                       r"TryFrom)|::(?:sum|product)::<&?[iu]size>|TryInto<[iu]size>|\b[iu]size::(?:MAX|BITS)|"
                       r"Range(?:Inclusive)?<[iu](?:64|128)> as (?:\w+::)*Iterator>::(?:count|enumerate|position|size_hint)\b")

HEAD = re.compile(r"(?:fn (.*?)\((_1: .*)?\) -> .*|(?:const|static) (?:mut )?(.*): .* =|.*) \{$")
CONSTANT = re.compile(r"const (\S+): \w+ = const (\d+)_\w+;")
LOCAL = re.compile(r" +let (?:mut )?(_\d+): (.*?);(?: |$)")
BLOCK = re.compile(r" {4}(bb\d+)(?: \(cleanup\))?: \{$")
STEP = re.compile(r" {8}(?:(\S.*?) = )?(\S.*?);? *// scope \d+ at (\S+?):(\d+):\d+: \d+:\d+$")


def parts(text):
    """The parts of a text between its commas outside of brackets."""
    depth, part = 0, ""
    for letter in text.replace("->", "  "):
        depth += (letter in "([{<") - (letter in ")]}>")
        if letter == "," and depth == 0:
            yield part.strip()
            part = ""
        else:
            part += letter
    yield part.strip()


class Function:
    """A function's places with their types, and its steps: the block, what is made, of what, the file and the line."""

    def __init__(self, name, given, constants):
        self.name, self.constants, self.block, self.steps = name, constants, "", []
        self.types = dict(part.split(": ", 1) for part in parts(given or "") if part)

    def maker(self, local):
        """The one step that makes a local, or None: also of one that is lent to be changed."""
        lent = any(what in (f"&mut {local}", f"&raw mut {local}") for _, _, what, *_ in self.steps)
        made = [step for step in self.steps if step[1] == local]
        return made[0] if len(made) == 1 and not lent else None

    def type_of(self, place):
        """The type of a place; nothing where it can't be told."""
        if place in self.types:
            return self.types[place]
        if found := re.fullmatch(r"\(.*\.\d+: (.*)\)", place):
            return found.group(1)
        if place.endswith("]"):
            return re.sub(r"^\[|(; [^;]*)?\]$", "", self.type_of(place[:place.rindex("[")]))
        return re.sub(r"^(&(mut )?|\*(const|mut) )", "", self.type_of(place[2:-1])) if place.startswith("(*") else ""

    def bound(self, value, depth=9):
        """The largest that a value is at 32 bits, by the types of what it is made of, or None; of a `usize`, unless it is as large as any."""
        value = re.sub(r"^(copy|move) ", "", value)
        if found := re.fullmatch(r"const (?:(\d+)_\w+|(\S+))", value):
            return int(found.group(1)) if found.group(1) else self.constants.get(found.group(2).rpartition("::")[2])
        if found := re.fullmatch(r"\((_\d+)\.0: \w+\)", value):
            value = found.group(1)
        made = self.maker(value) if depth else None
        found, largest = self.bound_of_step(made[2], depth - 1) if made else None, LARGEST.get(self.type_of(value))
        return largest if found is None or largest is not None and self.type_of(value) != "usize" and largest < found else found

    def bound_of_step(self, what, depth=9):
        """The largest number that a step makes, or None."""
        if found := COMPUTES.match(what):
            name, (left, *right) = found.group(1), [self.bound(part, depth) for part in parts(found.group(2))]
            if name in GROWING and left is not None and right[0] is not None:
                return GROWING[name](left, right[0])
            return left if name in NO_LARGER else None
        if found := CALL.match(what):
            if of := FROM.match(found.group(1)):
                return LARGEST.get(of.group(1) or of.group(2))
            is_known = found.group(1).rpartition("::")[2] in CALLS_NO_LARGER and "<impl " in found.group(1)
            return self.bound(next(parts(found.group(2))), depth) if is_known else None
        found = CAST.match(what)
        return self.bound(found.group(1) if found else what, depth)

    def going_on(self, block, edge, passed=()):
        """The blocks that come after one, without an edge, and not beyond those passed."""
        seen, left = set(), [(block, to) for at, _, what, *_ in self.steps if at == block and "-> " in what
                             for to in re.findall(r"\bbb\d+", what.rpartition("-> ")[2])]
        while left:
            step = left.pop()
            if step != edge and step[1] not in seen:
                seen.add(step[1])
                if step[1] not in passed:
                    left.extend((step[1], to) for at, _, what, *_ in self.steps if at == step[1] and "-> " in what
                                for to in re.findall(r"\bbb\d+", what.rpartition("-> ")[2]))
        return seen

    def read(self, value):
        """The local that a value is a copy of, and the block where it is read."""
        local = re.sub(r"^(copy|move) ", "", value)
        made = self.maker(local)
        found = made and re.fullmatch(r"(?:copy|move) (_\d+)", made[2])
        return (found.group(1), made[0]) if found else (local, None)

    def holds(self, at, place, is_true, local, read, block):
        """Whether a comparison has come out so on each way to a block, and the local is as it was when it was read."""
        read = read or at
        switch = [re.findall(r"bb\d+", what) for b, _, what, *_ in self.steps if b == at and what.startswith(f"switchInt(move {place})")]
        if not switch or any(what in (f"&mut {local}", f"&raw mut {local}") for _, _, what, *_ in self.steps):
            return False
        edge = (at, switch[0][1 if is_true else 0])
        changing = {b for b, made, *_ in self.steps if made == local}
        between = self.going_on(read, None, (read,)) & changing
        return (block not in self.going_on("bb0", edge) | self.going_on(read, edge) | {"bb0"} and not {read, block} & changing
                and not any(block in self.going_on(b, None, (read,)) for b in between))

    def is_below(self, value, more, block):
        """Whether it was found before a block that a value and so much more is at most a `usize`."""
        local, _ = self.read(value)
        for at, place, what, *_ in self.steps:
            found = re.fullmatch(r"(Lt|Ge)\((.*), (.*)\)", what)
            if not found or self.bound(found.group(3)) is None or self.bound(found.group(3)) > MOST:
                continue
            of, read = self.read(found.group(2))
            if of == local and more <= 1 and self.holds(at, place, found.group(1) == "Lt", local, read, block):
                return True
            less = self.maker(re.sub(r"^move \((_\d+)\.0: usize\)$", r"\1", self.made_of(found.group(2))))
            if less and less[2].startswith("SubWithOverflow(") and self.bound(found.group(3)) >= more:
                of, read = self.read(list(parts(less[2][16:-1]))[1])
                if of == local and self.holds(at, place, found.group(1) == "Ge", local, read, block):
                    return True
        return False

    def made_of(self, value):
        """What a value is a copy of."""
        made = self.maker(re.sub(r"^(copy|move) ", "", value))
        return made[2] if made else value

    def fault(self, step):
        """What is refused of a step, or None."""
        block, place, what, *_ = step
        if found := CAST.match(what):
            of, to = found.groups()
            bounded = self.bound(of)
            fine = to not in WIDE or to == "usize" and (bounded is not None and bounded <= MOST or self.is_below(of, 0, block))
            return None if fine else f"a cast to {to} of a number that nothing bounds"
        if (found := COMPUTES.match(what)) and self.type_of(place) in WIDE:
            most, (left, *right) = self.bound_of_step(what), list(parts(found.group(2)))
            fine = (found.group(1) in NO_LARGER or found.group(1) in GROWING and most is not None and most <= MOST
                    or found.group(1).startswith("Add") and right[0].startswith("const") and self.is_below(left, self.bound(right[0]), block))
            return None if fine else f"{found.group(1)} of a usize that no type bounds"
        found = WIDE_CALL.search(what)
        return f"{found.group()} of a machine's width" if found and found.group(1) not in CALLS_NO_LARGER else None


def functions(text, constants):
    """The functions that rustc wrote of a crate; its constants are added to these."""
    found = []
    for line in text.split("\n"):
        if line[:1].strip() and (of := CONSTANT.match(line)):
            constants[of.group(1).rpartition("::")[2]] = int(of.group(2))
        elif line[:1].strip() and (of := HEAD.match(line)):
            found.append(Function(of.group(1) or of.group(3) or "", of.group(2), constants))
        elif of := LOCAL.match(line):
            found[-1].types[of.group(1)] = of.group(2)
        elif of := BLOCK.match(line):
            found[-1].block = of.group(1)
        elif of := STEP.match(line):
            found[-1].steps.append((found[-1].block, of.group(1), of.group(2), of.group(3), int(of.group(4))))
    for function in found:
        if "(" not in function.name and function.types.get("_0") == "usize" and function.name.rpartition("::")[2].isupper():
            constants.setdefault(function.name.rpartition("::")[2], function.bound("_0"))
    return found
