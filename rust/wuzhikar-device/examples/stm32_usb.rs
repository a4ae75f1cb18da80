// SPDX-License-Identifier: MIT OR Apache-2.0

//! A `Controller` for the USB full-speed device controller of ST's chips, to be copied: one buffer for each direction of
//! endpoint 0, and one for endpoint 1. Written by the manuals of STM32F0 and STM32G0, whose names differ (EPnR, CHEPnR);
//! not tried on a chip. The tests below play its registers.

use arrayvec::ArrayVec;
use core::cell::{RefCell, RefMut};
use wuzhikar_device::{Buffers, Controller, Endpoint1, Endpoints, Input, Output, Report, UsbDevice, Waiting};

/// The registers, with the lower 16 bits of those that have 32.
#[derive(Clone, Copy, Debug, PartialEq, Eq)]
pub enum Register {
    /// EP0R or CHEP0R.
    Endpoint0,
    /// EP1R or CHEP1R.
    Endpoint1,
    /// CNTR.
    Control,
    /// ISTR.
    Status,
    /// DADDR.
    Address,
}

/// What differs from family to family: where the registers are, and how the packet memory is laid out.
pub trait Registers {
    fn read(&mut self, register: Register) -> u16;
    fn write(&mut self, register: Register, value: u16);
    /// The packet that endpoint 0 has received. On STM32 G0, C0, H5 and U5 its length is right some 800 ns after CTR_RX (erratum, from
    /// memory): wait first.
    fn received(&mut self) -> ArrayVec<u8, 8>;
    /// Puts a packet where an endpoint sends it from, and its length into the table of buffers.
    fn fill(&mut self, endpoint: Register, packet: &[u8]);
    /// Writes the table of buffers, which a reset of the controller may have emptied.
    fn lay_out(&mut self);
    /// Turns the interrupts of the processor off or on.
    fn interrupts(&mut self, on: bool);
    /// Waits for so many milliseconds.
    fn wait(&mut self, milliseconds: u32);
}

// Bits of EPnR. A one that is written turns a bit of STAT or DTOG round, and a zero clears CTR.
const CTR_RX: u16 = 1 << 15;
const DTOG_RX: u16 = 1 << 14;
const STAT_RX: u16 = 3 << 12;
const SETUP: u16 = 1 << 11;
const TYPE: u16 = 3 << 9;
const CONTROL: u16 = 1 << 9;
const INTERRUPT: u16 = 3 << 9;
const KIND: u16 = 1 << 8;
const CTR_TX: u16 = 1 << 7;
const DTOG_TX: u16 = 1 << 6;
const STAT_TX: u16 = 3 << 4;
const NUMBER: u16 = 0xf;

// What STAT_RX and STAT_TX say.
const DISABLED: u16 = 0x0000;
const STALL: u16 = 0x1010;
const NAK: u16 = 0x2020;
const VALID: u16 = 0x3030;

/// RESET, SUSP and WKUP of ISTR, each cleared by a zero; RESUME and FSUSP of CNTR; EF of DADDR.
const RESET: u16 = 1 << 10;
const SUSPENDED: u16 = 1 << 11;
const RESUMED: u16 = 1 << 12;
const WAKE: u16 = 1 << 4;
const SUSPEND: u16 = 1 << 3;
const ENABLED: u16 = 1 << 7;

/// The controller: endpoint 0 for `UsbDevice::serve`, and a copy of it, endpoint 1, that the device owns.
#[derive(Debug)]
pub struct Stm32Usb<'r, R>(&'r RefCell<R>);

impl<R> Clone for Stm32Usb<'_, R> {
    fn clone(&self) -> Self {
        *self
    }
}

impl<R> Copy for Stm32Usb<'_, R> {}

impl<'r, R: Registers> Stm32Usb<'r, R> {
    /// The controller, powered, out of its reset, and with its clock on.
    pub fn new(registers: &'r RefCell<R>) -> Stm32Usb<'r, R> {
        Stm32Usb(registers)
    }

    /// What the loop does for the bus in each of its rounds: suspend and resume, packets, and a remote wakeup.
    pub fn serve<E: Endpoints>(mut self, device: &mut UsbDevice<'_, E, Self>) {
        let status = self.registers().read(Register::Status);
        if status & SUSPENDED != 0 {
            // In this order, as the manual has it: until FSUSP stands the bit comes again.
            self.control(SUSPEND, true);
            self.registers().write(Register::Status, !SUSPENDED);
            device.suspended();
        }
        if status & RESUMED != 0 {
            self.control(SUSPEND, false);
            self.registers().write(Register::Status, !RESUMED);
            device.resumed();
        }
        device.serve(&mut self);
        if device.wakes() {
            // The bus was idle for 3 ms, and has to be for 5. K is signalled for 1 to 15 ms.
            self.registers().wait(2);
            self.control(WAKE, true);
            self.registers().wait(3);
            self.control(WAKE, false);
        }
    }

    fn registers(&self) -> RefMut<'r, R> {
        self.0.borrow_mut()
    }

    /// Sets a bit of CNTR, or clears it.
    fn control(&self, bit: u16, on: bool) {
        let old = self.registers().read(Register::Control);
        self.registers().write(Register::Control, if on { old | bit } else { old & !bit });
    }

    /// Makes these bits of STAT and DTOG what they are in `to`, and leaves all others as they are.
    fn set(&self, endpoint: Register, bits: u16, to: u16) {
        let old = self.registers().read(endpoint);
        self.registers().write(endpoint, old & (NUMBER | TYPE | KIND) | CTR_RX | CTR_TX | (old ^ to) & bits);
    }

    /// Whether CTR_RX or CTR_TX stands, which is then cleared.
    fn take(&self, endpoint: Register, flag: u16) -> bool {
        let old = self.registers().read(endpoint);
        if old & flag != 0 {
            self.registers().write(endpoint, old & (NUMBER | TYPE | KIND) | (CTR_RX | CTR_TX) & !flag);
        }
        old & flag != 0
    }

    /// Takes the packet of endpoint 1 back, unless the host has taken it.
    fn take_back(&self) {
        self.registers().interrupts(false);
        // Where the host takes the packet before a write, the write turns NAK into VALID: then once more.
        while self.registers().read(Register::Endpoint1) & STAT_TX == VALID & STAT_TX {
            self.set(Register::Endpoint1, STAT_TX, NAK);
        }
        self.registers().interrupts(true);
        self.take(Register::Endpoint1, CTR_TX);
    }

    fn is_reset(&self) -> bool {
        self.registers().read(Register::Status) & RESET != 0
    }

    /// Whether a SETUP packet or a reset has come that `waiting` did not give.
    fn is_overtaken(&self) -> bool {
        self.registers().read(Register::Endpoint0) & (CTR_RX | SETUP) == CTR_RX | SETUP || self.is_reset()
    }

    /// Sets what a direction of endpoint 0 answers, unless that is overtaken.
    fn answer(&self, bits: u16, to: u16) {
        self.registers().interrupts(false);
        if !self.is_overtaken() {
            self.set(Register::Endpoint0, bits, to);
            // A SETUP packet that came since has set both to NAK, which the write turned into something else. It is taken
            // back here, before the token after that packet can be on the bus (3 microseconds).
            if self.is_overtaken() {
                self.set(Register::Endpoint0, STAT_TX | STAT_RX, NAK);
            }
        }
        self.registers().interrupts(true);
    }
}

impl<R: Registers> Controller for Stm32Usb<'_, R> {
    fn waiting(&mut self) -> Waiting {
        let mut met = Waiting { reset: false, setup: None, out: None, taken: false };
        let endpoint_0 = self.registers().read(Register::Endpoint0);
        if endpoint_0 & CTR_RX != 0 {
            // Until it is cleared, none is taken in its place, not even a SETUP packet, which the host sends again.
            let packet = self.registers().received();
            self.take(Register::Endpoint0, CTR_RX);
            if endpoint_0 & SETUP != 0 {
                met.setup = packet.as_slice().try_into().ok();
            } else {
                met.out = Some(packet);
            }
        }
        met.taken = self.take(Register::Endpoint0, CTR_TX);
        if self.is_reset() {
            // All else is older, since the device is off until `forget` turns it on.
            self.registers().write(Register::Status, !RESET);
            self.take(Register::Endpoint0, CTR_RX);
            self.take(Register::Endpoint0, CTR_TX);
            met = Waiting { reset: true, setup: None, out: None, taken: false };
        }
        met
    }

    fn input_0(&mut self, answer: Input) {
        let to = match answer {
            Input::Nak => NAK,
            Input::Stall => STALL,
            Input::Packet(packet) => {
                self.registers().fill(Register::Endpoint0, &packet);
                VALID
            }
        };
        self.answer(STAT_TX, to);
    }

    fn output_0(&mut self, answer: Output) {
        let to = match answer {
            Output::Nak => NAK,
            Output::Take => VALID,
            Output::Stall => STALL,
        };
        self.answer(STAT_RX, to);
    }

    fn set_address(&mut self, address: u8) {
        if !self.is_reset() {
            self.registers().write(Register::Address, ENABLED | u16::from(address));
        }
    }
}

impl<R: Registers> Buffers for Stm32Usb<'_, R> {
    fn has_two(&self) -> bool {
        false
    }

    fn taken_1(&mut self) -> usize {
        usize::from(self.take(Register::Endpoint1, CTR_TX))
    }

    fn begin_anew(&mut self, state: Endpoint1) {
        if self.is_reset() {
            return;
        }
        let to = match state {
            Endpoint1::Off => DISABLED,
            Endpoint1::Ready => NAK,
            Endpoint1::Halted => STALL,
        };
        self.take_back();
        self.set(Register::Endpoint1, STAT_TX | DTOG_TX, to & STAT_TX);
    }

    fn give_up(&mut self) {
        if !self.is_reset() {
            self.take_back();
        }
    }

    /// The host does that by itself.
    fn host_began(&mut self) {}

    fn forget(&mut self) {
        self.registers().lay_out();
        for (endpoint, kind, to) in [(Register::Endpoint0, CONTROL, NAK), (Register::Endpoint1, INTERRUPT | 1, DISABLED)] {
            let old = self.registers().read(endpoint);
            let toggles = (old ^ to) & (STAT_TX | STAT_RX) | old & (DTOG_TX | DTOG_RX);
            self.registers().write(endpoint, kind | toggles);
        }
        self.registers().write(Register::Address, ENABLED);
    }

    fn input_1(&mut self, packet: Report) {
        if !self.is_reset() {
            self.registers().fill(Register::Endpoint1, &packet);
            self.set(Register::Endpoint1, STAT_TX, VALID);
        }
    }
}

#[cfg(test)]
#[path = "stm32_usb/tests.rs"]
mod tests;
