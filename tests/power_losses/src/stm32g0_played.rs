// SPDX-License-Identifier: MIT OR Apache-2.0
//! The registers of an STM32G0's flash, played over cells with error correction, and the driver tried on them.

use std::cell::Cell;

use settings::stm32g0::{
    BUSY, CORRECTED, Chip, DOUBLE, DOUBLE_WORD, ERRORS, FlashError, LOCK, PAGE, PAGE_ERASE, PAGE_NUMBER_AT, PROGRAM, Register,
    START, Stm32G0, on_nmi,
};
use wuzhikar_log::{FlashDriver, MountError, PairedFlash, UnitFlash};

use crate::chip::{self, Cells, STEADY};
use crate::flashes::Adapter;
use crate::power::{ChipError, Power};
use crate::runner::life;
use crate::subjects::Settings;

/// Flags of FLASH_SR that the tests look at.
const OPERATION_ERROR: u32 = 1 << 1;
const PROGRAM_ERROR: u32 = 1 << 3;
const ALIGNMENT_ERROR: u32 = 1 << 5;
const SEQUENCE_ERROR: u32 = 1 << 7;

/// The bytes of the flash: 9 pages of the log, of 8 KB each.
const BYTES: usize = 9 * 8192;

/// FLASH_ECCR's ECCCIE, which the driver leaves as it is.
const INTERRUPT: u32 = 1 << 24;

type Units = chip::Chip<1, 8, 2048>;

#[derive(Debug)]
struct Played {
    cells: Units,
    key: Option<u32>,
    status: u32,
    control: u32,
    ecc: u32,
    /// How often the flash is still found busy.
    busy: Cell<u32>,
    /// The first word of a program.
    first: Option<(u32, u32)>,
    /// What the handler of the NMI has left.
    double_error: bool,
    /// NMIs that came.
    nmis: u32,
    /// The double word of an instruction that is corrected at each load.
    weak_code: Option<u32>,
}

impl Played {
    fn new(cells: Cells, power: Power, seed: u64) -> Played {
        let cells = Units::corrected(BYTES, cells, power, seed);
        let (busy, key) = (Cell::new(0), None);
        Played {
            cells,
            key,
            status: 0,
            control: LOCK,
            ecc: INTERRUPT,
            busy,
            first: None,
            double_error: false,
            nmis: 0,
            weak_code: None,
        }
    }

    /// An operation was begun, and ends at once with these flags; it is found busy a few times.
    fn ends(&mut self, done: Result<(), ChipError>) {
        self.busy.set(3);
        match done {
            Ok(()) => {}
            Err(ChipError::Misuse(_)) => self.status |= PROGRAM_ERROR,
            Err(_) => self.status |= OPERATION_ERROR,
        }
    }

    /// Keeps the first flag that is raised, with its address.
    fn raise(&mut self, flag: u32, double_word: u32) {
        if self.ecc & (CORRECTED | DOUBLE) == 0 {
            self.ecc = INTERRUPT | double_word;
        }
        self.ecc |= flag;
    }
}

impl Chip for Played {
    fn register(&self, register: Register) -> u32 {
        match register {
            Register::Key => 0,
            Register::Status if self.busy.get() > 0 => {
                self.busy.set(self.busy.get() - 1);
                self.status | BUSY
            }
            Register::Status => self.status,
            Register::Control => self.control,
            Register::Ecc => self.ecc,
        }
    }

    fn set_register(&mut self, register: Register, value: u32) {
        assert_eq!(self.busy.get(), 0, "a register is written while the flash is busy");
        match register {
            Register::Key if self.key == Some(0x4567_0123) && value == 0xCDEF_89AB => self.control &= !LOCK,
            Register::Key => self.key = Some(value),
            Register::Status => self.status &= !(value & ERRORS),
            Register::Ecc => self.ecc = self.ecc & !(value & (CORRECTED | DOUBLE)) & !INTERRUPT | value & INTERRUPT,
            Register::Control if self.control & LOCK != 0 => panic!("FLASH_CR is locked"),
            Register::Control => {
                let starts = value & START != 0 && self.control & PAGE_ERASE != 0 && self.control == value & !START;
                self.control = value & !START;
                self.first = None;
                self.key = None;
                if starts {
                    let from = (value & !START & !PAGE_ERASE) >> PAGE_NUMBER_AT;
                    let done = self.cells.erase(from * PAGE, (from + 1) * PAGE);
                    self.ends(done);
                }
            }
        }
    }

    fn load(&mut self, offset: u32) -> u32 {
        assert_eq!(self.busy.get(), 0, "the flash is read while it is busy");
        if let Some(weak) = self.weak_code {
            self.raise(CORRECTED, weak);
        }
        let double_word = offset / DOUBLE_WORD;
        let bytes = match self.cells.unit(double_word as usize) {
            Ok((bytes, false)) => bytes,
            Ok((bytes, true)) => {
                self.raise(CORRECTED, double_word);
                bytes
            }
            Err(_) => {
                self.raise(DOUBLE, double_word);
                self.nmis += 1;
                self.double_error |= on_nmi(self);
                [0x55; 8]
            }
        };
        let [a, b, c, d, e, f, g, h] = bytes;
        u32::from_le_bytes(if offset % DOUBLE_WORD == 0 { [a, b, c, d] } else { [e, f, g, h] })
    }

    fn store(&mut self, offset: u32, word: u32) {
        if self.control != PROGRAM {
            self.status |= SEQUENCE_ERROR;
            return;
        }
        match self.first.take() {
            None if offset % DOUBLE_WORD == 0 => self.first = Some((offset, word)),
            Some((at, first)) if offset == at + 4 => {
                let bytes = u64::from(first) | u64::from(word) << 32;
                let done = self.cells.write(at, &bytes.to_le_bytes());
                self.ends(done);
            }
            _ => self.status |= ALIGNMENT_ERROR,
        }
    }

    fn take_double_error(&mut self) -> bool {
        std::mem::take(&mut self.double_error)
    }
}

type Driver = Stm32G0<Played, BYTES>;

impl Adapter for PairedFlash<UnitFlash<Driver>> {
    type Chip = Driver;

    fn blank(_pages: usize, cells: Cells, power: Power, seed: u64) -> Driver {
        Stm32G0::new(Played::new(cells, power, seed))
    }

    fn start(driver: Driver, pages: usize) -> Result<Self, (Self::Chip, MountError)> {
        // The loss of power has reset all registers.
        let mut chip = driver.into_chip();
        (chip.control, chip.status, chip.ecc, chip.first) = (LOCK, 0, INTERRUPT, None);
        chip.busy.set(0);
        Ok(PairedFlash::mount(UnitFlash::new(Stm32G0::new(chip), 8192, pages).expect("a geometry that serves")))
    }

    fn stop(self) -> Driver {
        self.into_flash().into_driver()
    }
}

/// A driver of an erased chip whose power stays on.
fn driver() -> Driver {
    let power = Power::default();
    power.on(u64::MAX);
    Stm32G0::new(Played::new(STEADY, power, 1))
}

/// What a driver reads of the double word at byte 0, whose bits below are turned first.
fn read_with(data: u64, turned: u64) -> (Result<[u8; 8], FlashError>, Played) {
    let mut driver = driver();
    driver.write(0, &data.to_le_bytes()).expect("programmed");
    let mut chip = driver.into_chip();
    chip.cells.turn(0, turned);
    let mut driver = Driver::new(chip);
    let mut bytes = [0; 8];
    let done = driver.read(0, &mut bytes);
    (done.map(|()| bytes), driver.into_chip())
}

#[test]
fn settings_on_the_registers_outlive_cuts() {
    for seed in 0..3 {
        life::<Settings, PairedFlash<UnitFlash<Driver>>>(seed, 100, STEADY).expect("nothing is lost");
    }
}

#[test]
fn what_is_written_is_read_and_erased() {
    let mut driver = driver();
    let bytes: Vec<u8> = (0..32).collect();
    driver.write(2048, &bytes).expect("programmed");
    let mut read = [0; 32];
    driver.read(2048, &mut read).expect("read");
    assert_eq!(read[..], bytes);
    driver.erase(2048, 4096).expect("erased");
    driver.read(2048, &mut read).expect("read");
    assert_eq!(read, [0xFF; 32]);
    let chip = driver.into_chip();
    assert_eq!((chip.control, chip.status, chip.ecc), (LOCK, 0, INTERRUPT));
}

#[test]
fn a_double_word_is_programmed_once() {
    let mut driver = driver();
    driver.write(8, &[1; 8]).expect("programmed");
    assert_eq!(driver.write(8, &[0; 8]), Err(FlashError::Status(PROGRAM_ERROR)));
    assert_eq!(driver.write(4, &[0; 8]), Err(FlashError::Status(ALIGNMENT_ERROR)));
    // The flags are cleared before the next one.
    assert_eq!(driver.write(16, &[1; 8]), Ok(()));
}

#[test]
fn wrong_bits_are_corrected_or_an_error() {
    let word = 0x0123_4567_89AB_CDEF;
    assert_eq!(read_with(word, 0).0, Ok(u64::to_le_bytes(word)));
    assert_eq!(read_with(word, 1 << 40).0, Ok(u64::to_le_bytes(word)));
    let (read, chip) = read_with(word, 1 << 40 | 1);
    assert_eq!(read, Err(FlashError::Double));
    // Both loads raised the NMI, whose handler cleared the flag and left the rest.
    assert_eq!((chip.nmis, chip.ecc & !0x3FFF), (2, INTERRUPT));
    // All bits but one are set: it reads as erased, and is not.
    assert_eq!(read_with(u64::MAX, 1 << 40).0, Err(FlashError::NotErased));
}

#[test]
fn what_is_corrected_elsewhere_is_told_apart() {
    let mut driver = driver();
    driver.write(0, &[7; 8]).expect("programmed");
    let mut chip = driver.into_chip();
    chip.weak_code = Some(100);
    let mut driver = Driver::new(chip);
    let mut bytes = [0; 8];
    assert_eq!((driver.read(0, &mut bytes), bytes), (Ok(()), [7; 8]));
    // Whether an erased double word is one can't be told while an instruction is corrected at each read.
    assert_eq!(driver.read(8, &mut bytes), Err(FlashError::Unclear));
}
