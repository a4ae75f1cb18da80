"""The machines: a stock Linux, a BIOS and UEFI in QEMU, by its own interpreter, with the keyboard behind USB."""

import contextlib
import socket
from typing import NamedTuple

import guest
import lists
import parts
from processes import Silent, running

# Prints "ready" on the first serial line, and then each character that INT 16h gives.
SECTOR = bytes.fromhex(
    "fa31c08ed88ed0bc007cfb"  # cli; xor %ax, %ax; mov %ax, %ds; mov %ax, %ss; mov $0x7c00, %sp; sti
    "be317cfc"                # mov $text, %si; cld
    "ac84c07405e80b00ebf6"    # print: lodsb; test %al, %al; jz keys; call out; jmp print
    "31c0cd16e80200ebf7"      # keys: xor %ax, %ax; int $0x16; call out; jmp keys
    "50bafd03eca82074f8"      # out: push %ax; wait: mov $0x3fd, %dx; in %dx, %al; test $0x20, %al; jz wait
    "58baf803eec3"            # pop %ax; mov $0x3f8, %dx; out %al, %dx; ret
) + b"ready\r\n\0"
CONTROLLERS = {"xHCI": "qemu-xhci", "UHCI": "piix3-usb-uhci"}
ENTER = "keys 36\nkeys\n"
WORDS = "console=ttyS0 quiet panic=-1 i8042.nokbd i8042.noaux suspend.pm_test_delay=1 nowatchdog no_timer_check"


def qemu(*words, line="stdio"):
    """A machine with a serial line, on the standard streams, and nothing else."""
    return ["qemu-system-x86_64", "-accel", "tcg", "-m", "256", "-smp", "1", "-nodefaults", "-display", "none", "-vga", "none",
            "-nic", "none", "-no-reboot", "-serial", line, *words]


def keyboard_words(number, path):
    """The words of QEMU for a keyboard at this socket, behind the machine's controller."""
    return ["-chardev", f"socket,id=kb{number},path={path}", "-device", f"usb-redir,chardev=kb{number},bus=usb.0"]


class Keyboard(NamedTuple):
    """A keyboard: what runs it, whose last words say where it waits for a machine; the size of its packets, its serial number."""

    command: list[str]
    size: int
    serial: str = ""

    @contextlib.contextmanager
    def at(self, path):
        """Lets the keyboard wait at a socket, and gives its hands."""
        with running([*self.command, "guest", path]) as hands:
            hands.until("\n")
            yield hands

    @contextlib.contextmanager
    def on_line(self, path, image):
        """Lets the keyboard wait at a socket, on a flash, and gives the end of a line to its hands."""
        ours, theirs = socket.socketpair()
        with ours, theirs:
            streams = f'exec "$@" <&{ours.fileno()} >&{ours.fileno()} 2>&1'
            # Not sh, whose redirections take file descriptors of one digit alone.
            with running(["bash", "-c", streams, "-", *self.command, "--image", image, "guest", path], (ours.fileno(),)):
                # The line ends with the keyboard.
                ours.close()
                # What it says when it is there would be echoed by a terminal that is not set yet.
                while theirs.recv(1) not in (b"\n", b""):
                    pass
                yield theirs


def boot(work, programs, reports, names=guest.MODULES):
    """Puts the kernel and the RAM disk of the guest, with these modules, into a folder: their paths, and the release."""
    tree, release = parts.linux()
    paths = f"{work}/kernel", f"{work}/disk.cpio.gz"
    kernel = guest.unpacked(guest.read(f"{tree}/boot/vmlinuz-{release}"))
    for path, content in zip(paths, (kernel, guest.disk(tree, release, programs, reports, names))):
        with open(path, "wb") as file:
            file.write(content)
    return *paths, release


def boot_words(booted, words):
    """The words of QEMU for a Linux that boots with these words."""
    return ["-kernel", booted[0], "-initrd", booted[1], "-append", f"{WORDS} {words}"]


def linux(work, keyboard, booted, words):
    """What a stock Linux says that boots with these words, with a keyboard behind its own controller, whose hands are at the second
    serial line."""
    path, image = f"{work}/{keyboard.serial}", f"{work}/{keyboard.serial}.image"
    with open(image, "wb") as file:
        file.write(guest.full_image())
    with keyboard.on_line(path, image) as line:
        command = qemu(*boot_words(booted, f"wire={keyboard.serial} {words}"), "-chardev", f"socket,id=hands,fd={line.fileno()}", "-serial", "chardev:hands")
        with running([*command, "-device", "qemu-xhci,id=usb", *keyboard_words(0, path)], (line.fileno(),)) as machine:
            machine.until("--- off")
            return machine.text()


def follow(work, keyboard, booted, names, words="", attached=()):
    """Follows lists on a keyboard, and on those that the words attach: what was said of each, and where it is otherwise."""
    words = f"{words} lists={','.join(names)} alone={','.join(lists.ALONE)}"
    try:
        found, _ = lists.sections(linux(work, keyboard, booted, words))
    except Silent as error:
        return {}, [str(error), *error.said.splitlines()[-8:]]
    wanted = [*attached, *((name, keyboard.serial, keyboard.size) for name in names + lists.ALONE)]
    return found, [line for one in wanted for line in lists.compared(*one, found)]


def function(booted, sizes, names):
    """Follows lists on keyboards that are a function of the Linux that is their host, each by a program whose name is its serial
    number, with packets of this size: where what was said is otherwise."""
    try:
        with running(qemu(*boot_words(booted, f"function={','.join(sizes)} lists={','.join(names)}"))) as machine:
            machine.until("--- off")
            found, _ = lists.sections(machine.text())
    except Silent as error:
        return [str(error), *error.said.splitlines()[-8:]]
    return [line for serial, size in sizes.items() for name in names for line in lists.compared(name, serial, size, found)]


def bios(work, keyboard, controller):
    """What SeaBIOS makes of a keyboard: "types", or the line with which it refuses it."""
    with open(f"{work}/disk", "wb") as file:
        file.write(SECTOR.ljust(510, b"\0") + b"\x55\xaa" + bytes(2879 * 512))
    path = f"{work}/bios"
    refusal = f"USB keyboard wMaxPacketSize={keyboard.size}; aborting"
    with keyboard.at(path) as hands:
        command = qemu("-device", f"{CONTROLLERS[controller]},id=usb", *keyboard_words(0, path))
        command += ["-drive", f"file={work}/disk,format=raw,if=ide"]
        command += ["-chardev", f"file,id=log,path={work}/log", "-device", "isa-debugcon,iobase=0x402,chardev=log"]
        with running(command) as machine:
            machine.until("ready")
            with open(f"{work}/log", encoding="utf-8", errors="replace") as log:
                if refusal in log.read():
                    return refusal
            hands.say("type Hi!\n")
            machine.until("Hi!")
            return "types"


def uefi(work, keyboards, firmware):
    """Waits until the shell of UEFI has done what each of these keyboards has typed."""
    with contextlib.ExitStack() as stack:
        command = qemu("-machine", "q35", "-bios", firmware, "-device", "qemu-xhci,id=usb")
        hands = []
        for number, keyboard in enumerate(keyboards):
            hands.append(stack.enter_context(keyboard.at(f"{work}/uefi{number}")))
            command += keyboard_words(number, f"{work}/uefi{number}")
        machine = stack.enter_context(running(command))
        machine.until("Shell> ")
        for number, keys in enumerate(hands):
            # A character that is typed is shown with a movement of the cursor, so the text stands whole in the answer alone.
            keys.say(f"type echo Typed by {number}.\n{ENTER}")
            machine.until(f"Typed by {number}.")
