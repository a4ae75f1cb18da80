// SPDX-License-Identifier: MIT OR Apache-2.0

//! A `Controller` for the full-speed core DWC2 of Synopsys, to be copied: the OTG_FS of STM32 F4, F7 and L4, and the OTG of ESP32-S2
//! and S3. Not tried on a chip: **registers and what they do are from memory** of the manual of STM32F4 and of free drivers. The
//! tests below play them. FIFOs are written by the processor. The maker's start-up sets TRDT of GUSBCFG: 6 where the AHB has 32 MHz
//! or more.
//!
//! The chip can't keep two clauses of the traits as they stand:
//!
//! - **Address.** The core wants it before the status packet of SET_ADDRESS, and takes it with that packet. So it is written where
//!   that packet is handed over, and `set_address` does nothing. If the host never gets the packet, the core may have it or not: the
//!   host resets the bus.
//! - **STALL of endpoint 0.** The core alone ends it, at a SETUP packet. Where one comes between the driver's last look and its write
//!   of STALL, some cycles of the processor, the request after that packet is stalled too. The host sees a failure where there was
//!   none, and never a success.
//!
//! A reset leaves what was received in the FIFO. So [`interrupt`] empties that at once; a SETUP packet after a reset is lost where
//! the handler runs more than 10 ms late, as in an erase that stops the processor, and the host then resets again.

use core::cell::Cell;
use wuzhikar_device::{Buffers, Controller, Endpoint1, Endpoints, Input, Output, Report, UsbDevice, Waiting};

/// The core, or what plays it. A place is a byte behind its first register, 50000000h on STM32.
pub trait Registers {
    fn read(&self, place: usize) -> u32;
    fn write(&self, place: usize, word: u32);
    /// Turns the interrupts of the processor off or on.
    fn interrupts(&self, on: bool);
    /// Waits for so many milliseconds.
    fn wait(&self, milliseconds: u32);
}

// The registers: of the core, of the device, and of an endpoint.
const AHB: usize = 0x008;
const FLUSH: usize = 0x010;
const STATUS: usize = 0x014;
const MASK: usize = 0x018;
const RECEIVED: usize = 0x020;
const RX_SIZE: usize = 0x024;
const TX_SIZE: [usize; 2] = [0x028, 0x104];
const CONFIGURATION: usize = 0x800;
const CONTROL: usize = 0x804;
const DEVICE_STATUS: usize = 0x808;
const IN: [usize; 2] = [0x900, 0x920];
const OUT_0: usize = 0xb00;
/// Behind those of an endpoint: what it met, and what it sends.
const MET: usize = 0x08;
const SIZE: usize = 0x10;
const FIFO: [usize; 2] = [0x1000, 0x2000];

// STATUS, each but RX_WAITS cleared by a one.
const RX_WAITS: u32 = 1 << 4;
const SUSPENDED: u32 = 1 << 11;
const RESET: u32 = 1 << 12;
/// The reset is over, and was not told.
const WAS_RESET: u32 = 1 << 13;
const RESUMED: u32 = 1 << 31;

// FLUSH.
const RX_FLUSH: u32 = 1 << 4;
const TX_FLUSH: u32 = 1 << 5;

/// CONFIGURATION: full speed, and the address; CONTROL: K, and off the bus.
const FULL_SPEED: u32 = 3;
const WAKE: u32 = 1 << 0;
const OFF_BUS: u32 = 1 << 1;

// Control of an endpoint.
const BYTES_8: u32 = 3;
const ACTIVE: u32 = 1 << 15;
const NAKS: u32 = 1 << 17;
/// Interrupt type, FIFO 1, at most 64 bytes.
const OF_1: u32 = 3 << 18 | 1 << 22 | 64;
const STALL: u32 = 1 << 21;
const CLEAR_NAK: u32 = 1 << 26;
const SET_NAK: u32 = 1 << 27;
const DATA0: u32 = 1 << 28;
const DISABLE: u32 = 1 << 30;
const ENABLE: u32 = 1 << 31;
/// What a write of it does once.
const ONCE: u32 = 0x3f << 26;

/// The transfer is over, in MET; one packet, and up to three SETUP packets, in SIZE.
const DONE: u32 = 1 << 0;
const ONE: u32 = 1 << 19;
const SETUPS: u32 = 3 << 29;

/// What RECEIVED says of a packet.
const OUT_DATA: u32 = 2;
const SETUP_DATA: u32 = 6;

/// What the handler of the core's interrupt calls.
pub fn interrupt(registers: &impl Registers) {
    if registers.read(STATUS) & RESET != 0 {
        registers.write(FLUSH, RX_FLUSH);
        while registers.read(FLUSH) & RX_FLUSH != 0 {}
        registers.write(CONFIGURATION, FULL_SPEED);
        registers.write(STATUS, RESET);
    }
}

/// The registers, and what was read out of the FIFO and not told.
#[derive(Debug)]
pub struct Dwc2<R> {
    pub registers: R,
    setup: Cell<Option<[u8; 8]>>,
    out: Cell<Option<([u8; 8], usize)>>,
    /// The address of SET_ADDRESS, whose status packet is due.
    address: Cell<Option<u8>>,
}

impl<R: Registers> Dwc2<R> {
    /// Starts the core, which is powered, out of its reset, in device mode, and has its clock of 48 MHz and its TRDT.
    pub fn start(registers: R) -> Dwc2<R> {
        registers.write(CONTROL, OFF_BUS);
        registers.write(CONFIGURATION, FULL_SPEED);
        // In words: those of the receiver stand first.
        registers.write(RX_SIZE, 64);
        registers.write(TX_SIZE[0], 16 << 16 | 64);
        registers.write(TX_SIZE[1], 16 << 16 | 80);
        registers.write(STATUS, u32::MAX);
        registers.write(MASK, RESET);
        registers.write(AHB, 1);
        registers.write(OUT_0 + SIZE, SETUPS);
        registers.write(CONTROL, 0);
        Dwc2 { registers, setup: Cell::new(None), out: Cell::new(None), address: Cell::new(None) }
    }
}

/// The controller: endpoint 0 for `UsbDevice::serve`, and a copy of it, endpoint 1, that the device owns.
#[derive(Debug)]
pub struct Dwc2Usb<'r, R>(pub &'r Dwc2<R>);

impl<R> Clone for Dwc2Usb<'_, R> {
    fn clone(&self) -> Self {
        *self
    }
}

impl<R> Copy for Dwc2Usb<'_, R> {}

impl<'r, R: Registers> Dwc2Usb<'r, R> {
    /// What the loop does for the bus in each of its rounds: suspend and resume, packets, and a remote wakeup.
    pub fn serve<E: Endpoints>(mut self, device: &mut UsbDevice<'_, E, Self>) {
        let registers = self.registers();
        let status = registers.read(STATUS) & (SUSPENDED | RESUMED);
        registers.write(STATUS, status);
        if status & SUSPENDED != 0 {
            device.suspended();
        }
        if status & RESUMED != 0 {
            device.resumed();
            if registers.read(DEVICE_STATUS) & 1 != 0 {
                device.suspended();
            }
        }
        device.serve(&mut self);
        if device.wakes() {
            // The bus was idle for 3 ms, and has to be for 5. K is signalled for 1 to 15 ms.
            registers.wait(2);
            registers.write(CONTROL, WAKE);
            registers.wait(3);
            registers.write(CONTROL, 0);
        }
    }

    fn registers(&self) -> &'r R {
        &self.0.registers
    }

    /// Reads out what was received, in the order of the bus. Interrupts are off.
    fn drain(&self) {
        let registers = self.registers();
        while registers.read(STATUS) & RX_WAITS != 0 {
            let told = registers.read(RECEIVED);
            let length = (told >> 4 & 0x7ff) as usize;
            let mut bytes = [0; 8];
            for at in (0..length).step_by(4) {
                let word = registers.read(FIFO[0]).to_le_bytes();
                bytes.iter_mut().skip(at).zip(word).for_each(|(byte, read)| *byte = read);
            }
            match told >> 17 & 0xf {
                SETUP_DATA => self.0.setup.set(Some(bytes)),
                OUT_DATA => self.0.out.set(Some((bytes, length.min(8)))),
                _ => {}
            }
        }
    }

    fn is_reset(&self) -> bool {
        self.registers().read(STATUS) & (RESET | WAS_RESET) != 0
    }

    /// Whether a SETUP packet or a reset has come that `waiting` did not give. Interrupts are off.
    fn is_overtaken(&self) -> bool {
        self.is_reset() || {
            self.drain();
            self.0.setup.get().is_some()
        }
    }

    /// Writes the control of an endpoint, whose lasting bits stay. A zero for STALL leaves that of endpoint 0, and endpoint 1 has no
    /// packet while it is halted.
    fn control(&self, place: usize, with: u32) {
        let old = self.registers().read(place);
        self.registers().write(place, old & !(ONCE | STALL) | with);
    }

    /// Takes the packet of an endpoint back, unless the host has taken it.
    fn take_back(&self, endpoint: usize) {
        let registers = self.registers();
        if registers.read(IN[endpoint]) & ENABLE != 0 {
            self.control(IN[endpoint], SET_NAK);
            while registers.read(IN[endpoint]) & (ENABLE | NAKS) == ENABLE {}
            if registers.read(IN[endpoint]) & ENABLE != 0 {
                self.control(IN[endpoint], SET_NAK | DISABLE);
                while registers.read(IN[endpoint]) & ENABLE != 0 {}
            }
        }
        registers.write(FLUSH, TX_FLUSH | (endpoint as u32) << 6);
        while registers.read(FLUSH) & TX_FLUSH != 0 {}
    }

    /// Puts a packet into the FIFO of an endpoint, which is empty.
    fn send(&self, endpoint: usize, packet: &[u8]) {
        let registers = self.registers();
        registers.write(IN[endpoint] + SIZE, ONE | packet.len() as u32);
        self.control(IN[endpoint], ENABLE | CLEAR_NAK);
        for bytes in packet.chunks(4) {
            registers.write(FIFO[endpoint], bytes.iter().rev().fold(0, |word, byte| word << 8 | u32::from(*byte)));
        }
    }

    /// Does this for endpoint 0 unless it is overtaken, and that where it was meanwhile, before the token after the SETUP packet
    /// can be on the bus (3 microseconds).
    fn answer(&self, does: impl FnOnce(), undoes: impl FnOnce()) {
        self.registers().interrupts(false);
        if !self.is_overtaken() {
            does();
            if self.is_overtaken() {
                undoes();
            }
        }
        self.registers().interrupts(true);
    }

    /// Whether the packet of an endpoint was taken since this was asked before.
    fn take(&self, endpoint: usize) -> bool {
        let done = self.registers().read(IN[endpoint] + MET) & DONE != 0;
        if done {
            self.registers().write(IN[endpoint] + MET, DONE);
        }
        done
    }
}

impl<R: Registers> Controller for Dwc2Usb<'_, R> {
    fn waiting(&mut self) -> Waiting {
        self.registers().interrupts(false);
        let reset = self.is_reset();
        if reset {
            // The interrupt, where it is late. What was read before is older.
            interrupt(self.registers());
            self.registers().write(STATUS, WAS_RESET);
            self.0.setup.set(None);
            self.0.out.set(None);
            self.take(0);
        }
        self.drain();
        self.registers().interrupts(true);
        let setup = self.0.setup.take();
        if let Some(packet) = setup {
            self.0.address.set(if packet[..2] == [0, 5] { Some(packet[2] & 0x7f) } else { None });
        }
        let out = self.0.out.take().map(|(bytes, length)| bytes[..length].iter().copied().collect());
        // Behind a SETUP packet the host takes none: this one it took before.
        Waiting { reset, setup, out, taken: self.take(0) }
    }

    fn input_0(&mut self, answer: Input) {
        let does = || {
            self.take_back(0);
            match answer {
                Input::Nak => {}
                Input::Stall if self.is_overtaken() => {}
                Input::Stall => self.control(IN[0], STALL),
                Input::Packet(packet) => {
                    if let Some(address) = self.0.address.take().filter(|_| packet.is_empty()) {
                        self.registers().write(CONFIGURATION, FULL_SPEED | u32::from(address) << 4);
                    }
                    self.send(0, &packet);
                }
            }
        };
        self.answer(does, || self.take_back(0));
    }

    fn output_0(&mut self, answer: Output) {
        let registers = self.registers();
        let does = || match answer {
            Output::Nak => self.control(OUT_0, SET_NAK),
            Output::Stall => self.control(OUT_0, STALL | SET_NAK),
            // A packet that came since waits for `waiting`.
            Output::Take if registers.read(OUT_0) & (ENABLE | NAKS) == ENABLE || self.0.out.get().is_some() => {}
            Output::Take => {
                registers.write(OUT_0 + SIZE, SETUPS | ONE | 8);
                self.control(OUT_0, ENABLE | CLEAR_NAK);
            }
        };
        self.answer(does, || self.control(OUT_0, SET_NAK));
    }

    /// The core has it already.
    fn set_address(&mut self, _address: u8) {}
}

impl<R: Registers> Buffers for Dwc2Usb<'_, R> {
    fn has_two(&self) -> bool {
        false
    }

    fn taken_1(&mut self) -> usize {
        usize::from(self.take(1))
    }

    fn begin_anew(&mut self, state: Endpoint1) {
        if !self.is_reset() {
            self.take_back(1);
            self.take(1);
            let is = match state {
                Endpoint1::Off => 0,
                Endpoint1::Ready => ACTIVE,
                Endpoint1::Halted => ACTIVE | STALL,
            };
            self.registers().write(IN[1], OF_1 | is | DATA0 | SET_NAK);
        }
    }

    fn give_up(&mut self) {
        if !self.is_reset() {
            self.take_back(1);
            self.take(1);
        }
    }

    /// The host does that by itself.
    fn host_began(&mut self) {}

    fn forget(&mut self) {
        (0..2).for_each(|endpoint| {
            self.take_back(endpoint);
            self.take(endpoint);
        });
        self.control(IN[0], BYTES_8 | SET_NAK);
        self.control(OUT_0, SET_NAK);
        self.registers().write(OUT_0 + SIZE, SETUPS);
        self.registers().write(IN[1], OF_1 | DATA0 | SET_NAK);
    }

    fn input_1(&mut self, packet: Report) {
        if !self.is_reset() {
            self.send(1, &packet);
        }
    }
}

#[cfg(test)]
#[path = "dwc2_usb/tests.rs"]
mod tests;
