"""What Linux parsed of a report descriptor, as its debugfs prints it (drivers/hid/hid-debug.c, rdesc), beside `kbsim parse --json`.

Each rule that makes Linux say something else than the reader is counted by its name. Linux prints usages by names of its own: one
name has to mean one usage all the time.
"""

import re
from collections import Counter

FLAGS = ["Constant", "Variable", "Relative", "Wrap", "NonLinear", "NoPreferredState", "NullState", "Volatile", "BufferedByte"]
UNSET = ["", "Array", "Absolute", "", "", "", "", "", ""]
# The names of units in the digits from the second one on, by system.
UNITS = {0: "None " * 7, 1: "Centimeter Gram Seconds Kelvin Ampere Candela None", 2: "Radians Gram Seconds Kelvin Ampere Candela None",
         3: "Inch Slug Seconds Fahrenheit Ampere Candela None", 4: "Degrees Slug Seconds Fahrenheit Ampere Candela None"}
SYSTEMS = ["None", "SI Linear", "SI Rotation", "English Linear", "English Rotation"]
PHYSICAL, APPLICATION, LOGICAL = range(3)  # types of collections
AROUND = {"Physical": PHYSICAL, "Logical": LOGICAL, "Application": APPLICATION}


def unit_words(data):
    """A unit as Linux says it."""
    if data & 15 not in UNITS:
        return "Invalid"
    digits = [data >> shift & 15 for shift in range(4, 32, 4)]
    named = [name if digit == 1 else f"{name}^{digit - 16 if digit > 7 else digit}"
             for name, digit in zip(UNITS[data & 15].split(), digits) if digit]
    return f"{SYSTEMS[data & 15]} : {'*'.join(named)}"


def reports(lines):
    """What Linux says: the fields of each report by kind and ID, each as a dictionary of its words with a list of usages."""
    found, fields = {}, []
    for line in lines:
        word, _, value = line.strip().partition("(")
        value = value.removesuffix(")")
        head = re.fullmatch(r"(INPUT|OUTPUT|FEATURE)(?:\((\d+)\))?\[\w+\]", line.strip())
        if head:
            fields = found.setdefault((head[1].lower(), int(head[2] or 0)), [])
        elif word == "Field":
            fields.append({"usages": []})
        elif "(" in line:
            fields[-1][word] = value.strip()
        else:
            fields[-1]["usages"].append(line.strip())
    return found


class Parsed:
    """Descriptors beside each other, the rules of Linux, and what Linux calls usages."""

    def __init__(self, rules: Counter):
        self.rules, self.names, self.fields = rules, {}, 0

    def is_named(self, name, usage):
        """Whether a name of Linux may be that of a usage: it means no other one, and its digits are those of the usage."""
        digits = re.search(r"\.([0-9a-f]{4})$", name)
        own = self.names.setdefault(name, usage)
        return own == usage and (not digits or int(digits[1], 16) == usage & 0xFFFF)

    def wanted(self, item):
        """What Linux has to say of a field, without its usages."""
        (least, greatest), (lower, upper) = item["logical"], item["physical"]
        said = {"Report Size": item["size"], "Report Count": item["count"], "Report Offset": item["bit"]}
        if least != greatest:
            said |= {"Logical Minimum": least, "Logical Maximum": greatest}
        if lower != upper:
            said |= {"Physical Minimum": lower, "Physical Maximum": upper}
        if item["unit"]["exponent"]:
            said["Unit Exponent"] = item["unit"]["exponent"]
        flags = [yes if item["flags"] >> bit & 1 else no for bit, (yes, no) in enumerate(zip(FLAGS, UNSET))]
        said["Flags"] = " ".join(filter(None, flags))
        if item["unit"]["data"]:
            said["Unit"] = unit_words(item["unit"]["data"]).strip()
        return {name: str(value) for name, value in said.items()}

    def usages(self, item):
        """The usages of a field, as many as Linux has: one for each place at least."""
        usages = [usage for part in item["usages"] for usage in range(part["first"], part["last"] + 1)]
        return usages + usages[-1:] * (item["count"] - len(usages))

    def around(self, told, item):
        """The usages of the innermost collections around a field, by the words of Linux, which says none where it is 0."""
        around = [told["collections"][place] for place in item["collections"]]
        found = {word: [one["usage"] for one in around if one["type"] == kind] for word, kind in AROUND.items()}
        return {word: all_[-1] for word, all_ in found.items() if all_ and all_[-1]}

    def field_differences(self, told, item, said):
        """The differences between Linux and the reader in a field."""
        self.fields += 1
        own, around = self.wanted(item), self.around(told, item)
        rest = {word: value for word, value in said.items() if word not in {"usages", "Usage", *AROUND}}
        if "Physical Minimum" not in rest and item["physical"] == item["logical"]:
            self.rules["physical extents that are not declared stay 0"] += "Physical Minimum" in own
            own = {word: value for word, value in own.items() if not word.startswith("Physical")}
        named = [*zip(said["usages"], self.usages(item)), *((said.get(word, ""), usage) for word, usage in around.items())]
        right = rest == own and len(said["usages"]) == len(self.usages(item)) and {word for word in AROUND if word in said} == set(around)
        return [] if right and all(self.is_named(*pair) for pair in named) else [f"Linux says {said}, the reader {own}, {self.usages(item)}, {around}"]

    def differences(self, name, told, lines):
        """In what Linux and the reader differ over a descriptor."""
        found, differing = reports(lines), []
        for kind, number in {**found, **{(item["kind"], item["id"]): 0 for item in told["fields"]}}:
            items = [item for item in told["fields"] if (item["kind"], item["id"]) == (kind, number) and item["size"] and item["count"]]
            padding = [(str(item["bit"]), str(item["size"]), str(item["count"])) for item in items if item["field"] is None]
            own = [item for item in items if item["field"] is not None]
            fields = [said for said in found.get((kind, number), []) if not said["Flags"].startswith("Constant")]
            constant = [said for said in found.get((kind, number), []) if said["Flags"].startswith("Constant")]
            self.rules["padding with a usage is a constant field"] += len(constant)
            if len(own) != len(fields) or any((said["Report Offset"], said["Report Size"], said["Report Count"]) not in padding for said in constant):
                differing.append(f"{name}, {kind} {number}: Linux has the fields {fields + constant}, the reader {own}")
            for item, said in zip(own, fields):
                differing += (f"{name}, {kind} {number}: {line}" for line in self.field_differences(told, item, said))
        return differing
