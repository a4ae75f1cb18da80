"""A stock Linux, a BIOS and UEFI type on the chip, as bin/linux-test has them type on the keyboard in memory."""

import os
import sys

from room import ROOT

sys.path.insert(0, f"{ROOT}/tools/linux_test")

import lists  # noqa: E402
import machines  # noqa: E402
import parts  # noqa: E402
import processes  # noqa: E402
from processes import Silent  # noqa: E402

SIZE, SERIAL = 16, "nRF51"  # those of the firmware
MISSING = parts.Missing


class Hosts:
    """What the hosts need beside the chip, built once. At `end`, if there is one, what they do is `Over`."""

    def __init__(self, work, end):
        parts.need_programs()
        processes.end_of_all = end
        os.makedirs(work, exist_ok=True)
        self.work, self.programs = work, parts.build(work)
        self.booted = machines.boot(work, self.programs, b"")

    def type_on(self, board, say):
        """Lets each host type on the chip that this command runs; gives the lines that are not as they should be."""
        keyboard = machines.Keyboard([*board, "host"], SIZE, SERIAL)
        names = lists.followed(self.programs)
        _, differing = machines.follow(self.work, keyboard, self.booted, names)
        if differing:
            return differing
        say(f"Linux {self.booted[2]} types, remaps and finds its keys behind cuts: {', '.join(names + lists.ALONE)}")
        try:
            self.firmwares(keyboard, say)
        except Silent as error:
            return [str(error), *error.said.splitlines()[-5:]]
        return []

    def firmwares(self, keyboard, say):
        """SeaBIOS and UEFI's shell."""
        said = machines.bios(self.work, keyboard, "xHCI")
        if said != "types":
            raise Silent(f"SeaBIOS: {said}", "")
        say("SeaBIOS types")
        if os.path.exists(parts.OVMF):
            machines.uefi(self.work, [keyboard], parts.OVMF)
            say("UEFI's shell types")
        else:
            say(f"skipped: UEFI, no {parts.OVMF} (Debian: ovmf)")
