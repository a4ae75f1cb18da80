// SPDX-License-Identifier: MIT OR Apache-2.0

//! A `Controller` for the USB controller of RP2040, to be copied: a buffer that both directions of endpoint 0 share, and one for
//! endpoint 1. Written by the manual of RP2040 (section 4.1). Not tried on a chip. The tests below play its registers.
//!
//! A SETUP packet or a reset leaves the buffers as they are. So the interrupt, [`interrupt`], takes them back at once, and
//! `waiting` tells of it later. No loop can take the interrupt's place: it has some 3 µs, so keep it in RAM with what it calls, and
//! all that runs with the interrupts off: one read of flash past its cache takes 2 µs.
//! The chip keeps no data toggles either: the driver does. The manual doesn't say what becomes of an OUT packet that comes again;
//! here it is acknowledged and dropped (USB 2.0 section 8.6.4).
//!
//! Errata, from memory: on B0 and B1 EP_ABORT does nothing (E2), so a packet that is on the wire while its buffer is taken back may
//! still go out or come, and a report may come twice or be lost. They also may not leave a reset on a busy bus (E5), behind a hub,
//! which nothing here mends. On each revision a bus error in place of an ACK may stop the controller (E15) until it is reset.

use core::cell::Cell;
use wuzhikar_device::{Buffers, Controller, Endpoint1, Endpoints, Input, Output, Report, UsbDevice, Waiting};

/// The chip, or what plays it. A place is a byte behind 50100000h, where the packet memory begins.
pub trait Registers {
    fn read(&self, place: usize) -> u32;
    fn write(&self, place: usize, word: u32);
    fn write_byte(&self, place: usize, byte: u8);
    /// The revision in CHIP_ID: 1 for B0 and B1, 2 for B2.
    fn revision(&self) -> u32;
    /// Turns the interrupts of the processor off or on.
    fn interrupts(&self, on: bool);
    /// Waits for a cycle of the controller's clock of 48 MHz: 12 cycles of the processor, at up to 133 MHz.
    fn pause(&self);
    /// Waits for so many milliseconds.
    fn wait(&self, milliseconds: u32);
}

// The packet memory. A control word says what stands in its buffer, whose number is also its bit in the registers.
const SETUP_PACKET: usize = 0x00;
const ENDPOINT_1: usize = 0x08;
const CONTROL: usize = 0x80;
const IN_0: usize = 0;
const OUT_0: usize = 1;
const IN_1: usize = 2;
/// Where the packets of each buffer lie. Beside a packet of a read a conforming host sends none but an empty one.
const PACKETS: [usize; 3] = [0x100, 0x100, 0x180];
/// What the driver and its interrupt share, in a word that no buffer has.
const NOTES: usize = 0xffc;
/// A reset came that `waiting` did not tell.
const WAS_RESET: u32 = 1;
/// The chip has an EP_ABORT that works.
const ABORTS: u32 = 2;
/// A packet takes less time than so many reads: a controller that has not ended it then has stopped.
const READS: u32 = 4000;

// The registers.
const ADDRESS: usize = 0x1_0000;
const MAIN_CONTROL: usize = 0x1_0040;
const SIE_CONTROL: usize = 0x1_004c;
const SIE_STATUS: usize = 0x1_0050;
const BUFFER_STATUS: usize = 0x1_0058;
const ABORT: usize = 0x1_0060;
const ABORT_DONE: usize = 0x1_0064;
const STALL_ARM: usize = 0x1_0068;
const MUXING: usize = 0x1_0074;
const POWER: usize = 0x1_0078;
const RAW_INTERRUPTS: usize = 0x1_008c;
const INTERRUPTS: usize = 0x1_0090;
const ASKED: usize = 0x1_0098;

// Bits of a control word.
const FULL: u32 = 1 << 15;
const LAST: u32 = 1 << 14;
const DATA1: u32 = 1 << 13;
const STALL: u32 = 1 << 11;
const AVAILABLE: u32 = 1 << 10;
const LENGTH: u32 = 0x3ff;

// SIE_STATUS, each cleared by a one, and their interrupts.
const BUS_RESET: u32 = 1 << 19;
const SETUP: u32 = 1 << 17;
const RESUMED: u32 = 1 << 11;
const SUSPENDED: u32 = 1 << 4;
const RESET_INTERRUPT: u32 = 1 << 12;
const SUSPENDED_INTERRUPT: u32 = 1 << 14;
const SETUP_INTERRUPT: u32 = 1 << 16;

/// SIE_CTRL: each packet of endpoint 0 is told, the device is on the bus, and it wakes the host.
const TELLS_0: u32 = 1 << 29;
const PULL_UP: u32 = 1 << 16;
const WAKE: u32 = 1 << 12;

/// Endpoint 1 is on, tells each packet, is of interrupt type, and has its packets there.
const ON: u32 = 1 << 31 | 1 << 29 | 3 << 26 | 0x180;

/// What the handler of USBCTRL_IRQ calls: takes back what a SETUP packet or a reset ends, before the token after it can be on
/// the bus (3 microseconds). A SETUP packet stays in SIE_STATUS until `waiting` tells it, and a reset in a note: each further one
/// comes here again. While a page is erased nothing runs that lies in the flash, so all of this is a part of the handler.
#[inline(always)]
pub fn interrupt(registers: &impl Registers) {
    let asked = registers.read(ASKED);
    let notes = registers.read(NOTES);
    if asked & RESET_INTERRUPT != 0 {
        // A SETUP packet that stands here came before the reset, which lasts 10 ms.
        registers.write(SIE_STATUS, BUS_RESET | SETUP);
        registers.write(NOTES, notes | WAS_RESET);
        registers.write(ADDRESS, 0);
        registers.write(ENDPOINT_1, 0);
        take_back(registers, notes, 1 << IN_0 | 1 << OUT_0 | 1 << IN_1);
        registers.write(BUFFER_STATUS, 1 << IN_0 | 1 << OUT_0 | 1 << IN_1);
        registers.write(INTERRUPTS, RESET_INTERRUPT | SETUP_INTERRUPT);
    } else if asked & SETUP_INTERRUPT != 0 {
        take_back(registers, notes, 1 << IN_0 | 1 << OUT_0);
        registers.write(INTERRUPTS, RESET_INTERRUPT);
    }
}

/// Empties buffers, whose words keep the length of a packet that came: their low byte, since no packet has more than 64 bytes.
/// Interrupts are off. (An array of buffers would lie in flash.)
#[inline(always)]
fn take_back(registers: &impl Registers, notes: u32, bits: u32) {
    let aborts = notes & ABORTS != 0;
    if aborts {
        registers.write(ABORT, bits);
        for _ in 0..READS {
            if registers.read(ABORT_DONE) & bits == bits {
                break;
            }
        }
    }
    for buffer in IN_0..=IN_1 {
        if bits >> buffer & 1 != 0 {
            registers.write_byte(CONTROL + 4 * buffer + 1, 0);
        }
    }
    if aborts {
        registers.write(ABORT_DONE, bits);
        registers.write(ABORT, 0);
    }
}

/// The registers, and the data toggle of the next packet of each buffer.
#[derive(Debug)]
pub struct Rp2040<R> {
    pub registers: R,
    toggles: [Cell<bool>; 3],
}

impl<R: Registers> Rp2040<R> {
    /// Starts the controller, which is out of its reset, with its clock of 48 MHz on.
    pub fn start(registers: R) -> Rp2040<R> {
        // The packet memory has no reset: what endpoints were, and what stood in their buffers.
        (ENDPOINT_1..PACKETS[IN_0]).step_by(4).for_each(|place| registers.write(place, 0));
        registers.write(NOTES, if registers.revision() >= 2 { ABORTS } else { 0 });
        // To the PHY; connected by software; power is there.
        registers.write(MUXING, 1 << 0 | 1 << 3);
        registers.write(POWER, 1 << 2 | 1 << 3);
        registers.write(MAIN_CONTROL, 1);
        registers.write(INTERRUPTS, RESET_INTERRUPT | SETUP_INTERRUPT);
        registers.write(SIE_CONTROL, TELLS_0 | PULL_UP);
        Rp2040 { registers, toggles: Default::default() }
    }
}

/// The controller: endpoint 0 for `UsbDevice::serve`, and a copy of it, endpoint 1, that the device owns.
#[derive(Debug)]
pub struct Rp2040Usb<'r, R>(pub &'r Rp2040<R>);

impl<R> Clone for Rp2040Usb<'_, R> {
    fn clone(&self) -> Self {
        *self
    }
}

impl<R> Copy for Rp2040Usb<'_, R> {}

impl<R: Registers> Rp2040Usb<'_, R> {
    /// What the loop does for the bus in each of its rounds: suspend and resume, packets, and a remote wakeup.
    pub fn serve<E: Endpoints>(mut self, device: &mut UsbDevice<'_, E, Self>) {
        let changed = self.0.registers.read(RAW_INTERRUPTS) & SUSPENDED_INTERRUPT != 0;
        // A suspend that comes in between is left to the next round.
        let status = self.0.registers.read(SIE_STATUS) & if changed { SUSPENDED | RESUMED } else { RESUMED };
        self.0.registers.write(SIE_STATUS, status);
        if status & SUSPENDED != 0 {
            device.suspended();
        }
        if status & RESUMED != 0 {
            device.resumed();
        }
        device.serve(&mut self);
        if device.wakes() {
            // The bus was idle for 3 ms, and has to be for 5. The controller ends K by itself.
            self.0.registers.wait(2);
            self.0.registers.write(SIE_CONTROL, TELLS_0 | PULL_UP | WAKE);
        }
    }

    /// Does this with the interrupts off. The function lies in RAM, and `does` has to be inlined into it.
    #[cfg_attr(target_os = "none", unsafe(link_section = ".ram"))]
    #[inline(never)]
    fn alone(&self, does: impl FnOnce(&R)) {
        self.0.registers.interrupts(false);
        does(&self.0.registers);
        self.0.registers.interrupts(true);
    }

    /// Does this alone, unless a reset or one of these has come that `waiting` did not tell. It is given the notes.
    fn unless(&self, overtaken: u32, does: impl FnOnce(&R, u32)) {
        self.alone(|registers| {
            let notes = registers.read(NOTES);
            if notes & WAS_RESET == 0 && registers.read(SIE_STATUS) & (BUS_RESET | overtaken) == 0 {
                does(registers, notes);
            }
        });
    }

    /// Puts a packet into a buffer, or what it answers else, unless that is overtaken. The interrupts are off twice, for a short
    /// time: the other buffers stay open in it, also after a SETUP packet.
    fn put(&self, buffer: usize, word: u32, packet: &[u8]) {
        let overtaken = if buffer == IN_1 { 0 } else { SETUP };
        self.unless(overtaken, |registers, notes| take_back(registers, notes, 1 << buffer));
        for (number, bytes) in packet.chunks(4).enumerate() {
            let word = bytes.iter().rev().fold(0, |word, byte| word << 8 | u32::from(*byte));
            self.0.registers.write(PACKETS[buffer] + 4 * number, word);
        }
        let word = word | if self.0.toggles[buffer].get() { DATA1 } else { 0 };
        self.unless(overtaken, |registers, _| {
            registers.write(CONTROL + 4 * buffer, word & !AVAILABLE);
            if word & STALL != 0 {
                let armed = registers.read(STALL_ARM);
                registers.write(STALL_ARM, armed | 1 << buffer);
            }
            // The controller has another clock: all else has to stand before this bit does.
            registers.pause();
            registers.write(CONTROL + 4 * buffer, word);
        });
    }

    /// Whether a packet was taken from a buffer, or came into it, since this was asked before.
    fn take(&self, buffer: usize) -> bool {
        let (registers, bit) = (&self.0.registers, 1 << buffer);
        let done = registers.read(BUFFER_STATUS) & bit != 0;
        if done {
            registers.write(BUFFER_STATUS, bit);
            self.0.toggles[buffer].set(!self.0.toggles[buffer].get());
        }
        done
    }

    /// The bytes of a packet, of which so many are there.
    fn bytes<const N: usize>(&self, place: usize) -> [u8; N] {
        let mut bytes = [0; N];
        for (number, part) in bytes.chunks_mut(4).enumerate() {
            part.copy_from_slice(&self.0.registers.read(place + 4 * number).to_le_bytes()[..part.len()]);
        }
        bytes
    }
}

impl<R: Registers> Controller for Rp2040Usb<'_, R> {
    fn waiting(&mut self) -> Waiting {
        let registers = &self.0.registers;
        let mut met = Waiting { reset: false, setup: None, out: None, taken: false };
        // What came since the last interrupt, or while it was off.
        self.alone(interrupt);
        let came = registers.read(SIE_STATUS) & SETUP != 0;
        let was_reset = registers.read(NOTES) & WAS_RESET != 0;
        // Behind a SETUP packet or a reset the buffers are empty: what they are done with came before.
        if self.take(OUT_0) {
            let length = registers.read(CONTROL + 4 * OUT_0) & LENGTH;
            met.out = Some(self.bytes::<8>(PACKETS[OUT_0])[..length.min(8) as usize].iter().copied().collect());
        }
        met.taken = self.take(IN_0);
        if was_reset {
            met = Waiting { reset: true, setup: None, out: None, taken: false };
            self.alone(|registers| registers.write(NOTES, registers.read(NOTES) & !WAS_RESET));
        }
        // Where another comes meanwhile it is read once more, and where a reset comes it is gone.
        while came && registers.read(SIE_STATUS) & SETUP != 0 {
            registers.write(SIE_STATUS, SETUP);
            met.setup = Some(self.bytes(SETUP_PACKET));
            self.0.toggles[..2].iter().for_each(|toggle| toggle.set(true));
        }
        registers.write(INTERRUPTS, RESET_INTERRUPT | SETUP_INTERRUPT);
        met
    }

    fn input_0(&mut self, answer: Input) {
        match answer {
            Input::Nak => self.put(IN_0, 0, &[]),
            Input::Stall => self.put(IN_0, STALL, &[]),
            Input::Packet(packet) => self.put(IN_0, FULL | LAST | AVAILABLE | packet.len() as u32, &packet),
        }
    }

    fn output_0(&mut self, answer: Output) {
        let is_open = || self.0.registers.read(CONTROL + 4 * OUT_0) & AVAILABLE != 0;
        let has_come = || self.0.registers.read(BUFFER_STATUS) & 1 << OUT_0 != 0;
        match answer {
            Output::Nak => self.put(OUT_0, 0, &[]),
            Output::Stall => self.put(OUT_0, STALL, &[]),
            // A packet that came since, and its length, wait for `waiting`.
            Output::Take if is_open() || has_come() => {}
            Output::Take => self.put(OUT_0, LAST | AVAILABLE | 8, &[]),
        }
    }

    fn set_address(&mut self, address: u8) {
        self.unless(0, |registers, _| registers.write(ADDRESS, address.into()));
    }
}

impl<R: Registers> Buffers for Rp2040Usb<'_, R> {
    fn has_two(&self) -> bool {
        false
    }

    fn taken_1(&mut self) -> usize {
        usize::from(self.take(IN_1))
    }

    fn begin_anew(&mut self, state: Endpoint1) {
        self.give_up();
        self.0.toggles[IN_1].set(false);
        self.unless(0, |registers, _| {
            registers.write(CONTROL + 4 * IN_1, if state == Endpoint1::Halted { STALL } else { 0 });
            registers.write(ENDPOINT_1, if state == Endpoint1::Off { 0 } else { ON });
        });
    }

    fn give_up(&mut self) {
        self.unless(0, |registers, notes| {
            // A halt stays, and has no packet.
            if registers.read(CONTROL + 4 * IN_1) & STALL == 0 {
                take_back(registers, notes, 1 << IN_1);
            }
        });
        self.take(IN_1);
    }

    /// The host does that by itself.
    fn host_began(&mut self) {}

    /// All else `interrupt` did.
    fn forget(&mut self) {
        self.0.toggles[IN_1].set(false);
    }

    fn input_1(&mut self, packet: Report) {
        self.put(IN_1, FULL | LAST | AVAILABLE | packet.len() as u32, &packet);
    }
}

#[cfg(target_os = "none")]
#[path = "rp2040_usb/chip.rs"]
pub mod chip;
#[cfg(test)]
#[path = "rp2040_usb/tests/played.rs"]
pub mod played;
#[cfg(test)]
#[path = "rp2040_usb/tests.rs"]
mod tests;
