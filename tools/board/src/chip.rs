// SPDX-License-Identifier: MIT OR Apache-2.0
//! The chip: its line, its flash, and the switch of its power.

use crate::ecc;
use crate::machine::Machine;
use crate::silence::{Owed, Waits};
use std::ffi::{c_int, c_short, c_ulong};
use std::io::{Error, ErrorKind, Read, Result, Write};
use std::os::fd::AsRawFd;
use std::os::unix::net::UnixStream;
use std::path::Path;

/// The last bytes of the flash, which the rig keeps while the power is off.
pub const REGION: usize = 32 * 1024;
/// What the log's slots take.
pub const LOG: usize = 8 * 1024;
/// What stands beside the log, and has to stay.
const BESIDE: u8 = 0x5a;

#[repr(C)]
struct PollFd {
    fd: c_int,
    events: c_short,
    revents: c_short,
}

unsafe extern "C" {
    fn poll(fds: *mut PollFd, count: c_ulong, timeout: c_int) -> c_int;
}

/// Where the power goes.
#[derive(Clone, Copy, Debug)]
pub struct Order {
    pub tick: u64,
    pub operation: u64,
    pub seed: u64,
    /// Of 256: how many bits of a torn operation are left undone; 257 for a number that is drawn.
    pub undone: u32,
    pub noise: bool,
    /// How long a program of a word and an erase of 1 KiB take.
    pub takes: [u32; 2],
}

impl Order {
    /// A word takes 46 us, a page of 1 KiB 22.3 ms, at 16 MHz and a tick for an instruction.
    pub const NEVER: Order = Order { tick: u64::MAX, operation: 0, seed: 1, undone: 257, noise: true, takes: [736, 356_800] };
}

/// What the switch tells at a start or a cut.
#[derive(Clone, Debug, Default)]
pub struct Told {
    pub cut: bool,
    pub ticks: u64,
    pub instructions: u64,
    pub operations: u64,
    /// 0 between two operations of the flash, 1 inside a program, 2 inside an erase.
    pub inside: u64,
    /// Words that were programmed while they were not blank, or more than twice, operations outside of the log, and accesses to a
    /// flash that is busy.
    pub broken: [u64; 4],
    pub erases: u64,
    pub stack: u64,
    /// The bytes of the log, at the end of the flash: more than its slots take where there is error correction.
    pub log: u64,
    /// The instructions up to the first look at the line, and the most between two looks since the last order.
    pub start: u64,
    pub longest: u64,
}

#[derive(Clone, Debug, PartialEq, Eq)]
pub struct Frame {
    pub kind: u8,
    pub leds: u8,
    pub change: [u8; 2],
    pub bytes: Vec<u8>,
}

/// Why there is no answer.
#[derive(Debug)]
pub enum Lost {
    /// The power went.
    Cut,
    /// The firmware is silent, or says what is no frame, or what is wrong.
    Dead(String),
    Io(Error),
}

impl From<Error> for Lost {
    fn from(error: Error) -> Lost {
        Lost::Io(error)
    }
}

pub struct Chip {
    machine: Machine,
    uart: UnixStream,
    switch: UnixStream,
    /// The flash while the power is off.
    pub flash: Vec<u8>,
    pub told: Told,
    pub waits: Waits,
    came: Vec<u8>,
    /// Whether the switch holds the processor at a cut.
    held: bool,
    /// Whether the chip has a flash that the rig does not know.
    on: bool,
    /// Whether another flash was put in since the power went.
    put: bool,
}

impl Chip {
    /// A chip without power, with an erased region.
    pub fn new(program: &[u8], plugin: &Path, folder: &Path) -> Result<Chip> {
        let (machine, uart, switch) = Machine::start(program, plugin, folder)?;
        let (flash, told, waits) = (Vec::new(), Told::default(), Waits::default());
        let mut chip = Chip { machine, uart, switch, flash, told, waits, came: Vec::new(), held: false, on: false, put: true };
        chip.hear_switch()?;
        std::fs::remove_dir_all(folder)?;
        chip.flash = vec![BESIDE; REGION];
        let from = chip.log();
        chip.flash[from..].fill(0xff);
        Ok(chip)
    }

    /// Makes QEMU look at the UART again: its model of an nRF51 does not say that it takes bytes from now on.
    pub fn begin(&mut self) -> std::result::Result<Frame, Lost> {
        self.machine.ask("query-status")?;
        self.ask(b"\x16\x16\x16\x16\x16\x16\x16\x16\x16\x16\x16\x16\x16\x16\x17")
    }

    /// Whether the flash controller (CONFIG) lets words be programmed or pages be erased now.
    pub fn flash_is_open(&mut self) -> Result<bool> {
        let told = self.machine.monitor("xp /1wx 0x4001e504")?;
        match told.split("0x").last().map(|word| &word[..word.len().min(8)]) {
            Some("00000000") => Ok(false),
            Some("00000001" | "00000002") => Ok(true),
            _ => Err(Error::other(format!("CONFIG is not told: {told}"))),
        }
    }

    /// Waits until the chip sleeps, and nothing is on its way to it.
    pub fn rests(&mut self) -> Result<()> {
        while !self.machine.rests()? {}
        Ok(())
    }

    /// Stops QEMU now, for so many seconds.
    pub fn starve(&self, seconds: u32) -> Result<()> {
        self.machine.stop(seconds)
    }

    fn hear_switch(&mut self) -> Result<()> {
        let mut bytes = [0; 8 * 14];
        self.switch.read_exact(&mut bytes)?;
        let number = |at: usize| u64::from_le_bytes(std::array::from_fn(|i| bytes[8 * at + i]));
        self.told = Told {
            cut: number(0) == 1,
            ticks: number(1),
            instructions: number(2),
            operations: number(3),
            inside: number(4),
            broken: [number(5), number(6), number(7), number(8)],
            erases: number(9),
            stack: number(10),
            log: number(11),
            start: number(12),
            longest: number(13),
        };
        let mut flash = vec![0; REGION];
        self.switch.read_exact(&mut flash)?;
        if self.told.cut || self.on {
            self.flash = flash;
        }
        self.on = false;
        Ok(())
    }

    /// Which of both sockets have something, after so many milliseconds at most.
    fn wait(&self, milliseconds: c_int) -> (bool, bool) {
        const IN: c_short = 1;
        let watch = |socket: &UnixStream| PollFd { fd: socket.as_raw_fd(), events: IN, revents: 0 };
        let mut both = [watch(&self.uart), watch(&self.switch)];
        // SAFETY: two structs of the C library's shape.
        unsafe { poll(both.as_mut_ptr(), 2, milliseconds) };
        (both[0].revents != 0, both[1].revents != 0)
    }

    /// Takes what the UART has said.
    fn drain(&mut self) -> Result<()> {
        while self.wait(0).0 {
            let mut bytes = [0; 1024];
            let count = self.uart.read(&mut bytes)?;
            if count == 0 {
                return Err(ErrorKind::UnexpectedEof.into());
            }
            self.came.extend(&bytes[..count]);
        }
        Ok(())
    }

    /// The next frame.
    pub fn frame(&mut self) -> std::result::Result<Frame, Lost> {
        let mut owed = Owed::new(&self.machine)?;
        loop {
            // What was said before a cut is heard before it.
            if let Some(frame) = self.take_frame()? {
                self.waits.came(&owed, &self.machine)?;
                return Ok(frame);
            }
            if self.held {
                return Err(Lost::Cut);
            }
            match self.wait(100) {
                (_, true) => {
                    self.hear_switch()?;
                    if !self.told.cut {
                        return Err(Lost::Dead("the chip was reset".to_string()));
                    }
                    self.held = true;
                    self.drain()?;
                }
                (true, false) => self.drain()?,
                (false, false) => owed.look(&mut self.machine)?,
            }
        }
    }

    fn take_frame(&mut self) -> std::result::Result<Option<Frame>, Lost> {
        let [kind, leds, change, value, length, rest @ ..] = &self.came[..] else { return Ok(None) };
        if !b"BkANSD".contains(kind) {
            return Err(Lost::Dead(format!("a frame {:02x?}", self.came)));
        }
        let Some(bytes) = rest.get(..usize::from(*length)) else { return Ok(None) };
        let frame = Frame { kind: *kind, leds: *leds, change: [*change, *value], bytes: bytes.to_vec() };
        self.came.drain(..5 + frame.bytes.len());
        Ok(Some(frame))
    }

    /// The answer to a request.
    pub fn ask(&mut self, request: &[u8]) -> std::result::Result<Frame, Lost> {
        if !self.held {
            self.uart.write_all(request)?;
        }
        self.frame()
    }

    /// Where the log begins in the flash that is kept.
    pub fn log(&self) -> usize {
        REGION - self.told.log as usize
    }

    /// Whether the flash has error correction: two units for each slot, and the checks of each.
    pub fn corrects(&self) -> bool {
        self.told.log as usize == 3 * LOG
    }

    /// Whether it has marks behind its pages, so that cells of a torn operation waver, and a start writes.
    pub fn wavers(&self) -> bool {
        self.told.log as usize % (LOG / 2) != 0
    }

    /// Puts these slots into the log's pages while the power is off. What stands behind them is erased.
    pub fn put(&mut self, slots: &[u8]) {
        let from = self.log();
        let bytes = if self.corrects() { ecc::units(slots) } else { slots.to_vec() };
        self.flash[from..].fill(0xff);
        self.flash[from..][..bytes.len()].copy_from_slice(&bytes);
        self.put = true;
    }

    /// What the switch told at the cut: whether the firmware broke a rule of the flash.
    pub fn keeps_its_bounds(&self) -> std::result::Result<(), Lost> {
        let [not_blank, often, outside, busy] = self.told.broken;
        if self.told.broken != [0; 4] || self.flash[..self.log()].iter().any(|byte| *byte != BESIDE) {
            let programs = format!("{not_blank} words not blank, {often} more than twice");
            let why = format!("{programs}, {outside} operations outside of the log, {busy} accesses while the flash was busy");
            return Err(Lost::Dead(format!("BROKEN, what was programmed or erased: {why}, or what stands beside the log")));
        }
        Ok(())
    }

    /// The power comes, and goes again as ordered. Behind a cut the machine is reset; what it says before that is lost.
    pub fn power(&mut self, order: Order) -> Result<()> {
        if self.held {
            self.reset()?;
        }
        if self.told.cut {
            return Err(Error::other("the switch has not told a start"));
        }
        self.on = true;
        let mut bytes = order.bytes(std::mem::take(&mut self.put));
        bytes.extend(&self.flash);
        self.switch.write_all(&bytes)
    }

    /// Orders a cut while the chip runs: its operation and its tick are counted from here on.
    pub fn order(&mut self, order: Order) -> Result<()> {
        self.switch.write_all(&order.bytes(false))?;
        self.machine.announce()
    }

    /// The power goes now, between two operations, where the processor sleeps or begins a block of instructions.
    pub fn cut(&mut self) -> Result<()> {
        if self.held {
            return Ok(());
        }
        self.reset()
    }

    /// Resets the machine, and drops what it says before. The answer by QMP may come behind the reset, which waits for the processor.
    fn reset(&mut self) -> Result<()> {
        self.machine.say("system_reset")?;
        if self.held {
            std::thread::sleep(std::time::Duration::from_micros(300));
            self.switch.write_all(b"g")?;
        }
        self.hear_switch()?;
        if self.told.cut {
            // The cut that was ordered came first.
            self.switch.write_all(b"g")?;
            self.hear_switch()?;
        }
        self.machine.hear()?;
        self.drain()?;
        self.came.clear();
        self.held = false;
        Ok(())
    }
}

impl Order {
    /// The bytes for the switch; `firm` where no cell of the flash is in doubt.
    fn bytes(&self, firm: bool) -> Vec<u8> {
        let mut bytes = Vec::new();
        for number in [self.tick, self.operation, self.seed] {
            bytes.extend(number.to_le_bytes());
        }
        for number in [self.undone, self.takes[0], self.takes[1], self.noise.into(), firm.into(), 0] {
            bytes.extend(number.to_le_bytes());
        }
        bytes
    }
}
