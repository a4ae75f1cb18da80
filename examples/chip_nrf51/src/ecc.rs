// SPDX-License-Identifier: MIT OR Apache-2.0
//! A flash with error correction, played on the flash that this chip has: units of eight bytes with eight check cells each, written
//! once between two erases, as those of an STM32G0. One wrong cell is corrected, and two are told. A chip that has such a flash
//! needs nothing of this file: its driver reads the controller's flags where this one decodes.

use crate::nvmc::{END, Nvmc};
use core::convert::Infallible;
use wuzhikar::wuzhikar_log::{FlashDriver, PairedFlash, UnitFlash};

const PAGES: usize = 2;
const PAGE: u32 = 8192;
/// The check cells are the low byte of a word for each unit, and stand behind the units.
const CHECKS: u32 = END - PAGES as u32 * PAGE / 2;
const START: u32 = CHECKS - PAGES as u32 * PAGE;
/// The bytes of the flash that the log has.
pub const LOG: u32 = END - START;

pub type Flash = PairedFlash<UnitFlash<Ecc>>;

pub fn flash() -> Option<Flash> {
    Some(PairedFlash::mount(UnitFlash::new(Ecc(Nvmc), START, PAGES).ok()?))
}

/// The check cells that each byte of a unit turns by its clear bits. Each bit turns an odd number of them, three or more, and no two
/// bits the same ones. So one wrong cell turns an odd number of checks, and two wrong cells an even number.
static TURNS: [[u8; 256]; 8] = turns();

const fn turns() -> [[u8; 256]; 8] {
    let (mut turns, mut column, mut bit) = ([[0; 256]; 8], 0u8, 0);
    while bit < 64 {
        column += 1;
        if column.count_ones() % 2 == 1 && column.count_ones() > 1 {
            let mut byte = 0;
            while byte < 256 {
                if byte >> (bit % 8) & 1 == 0 {
                    turns[bit / 8][byte] ^= column;
                }
                byte += 1;
            }
            bit += 1;
        }
    }
    turns
}

/// The checks of a unit. Those of an erased one are erased.
fn checks(bytes: &[u8]) -> u8 {
    TURNS.iter().zip(bytes).fold(0xff, |checks, (turns, byte)| checks ^ turns[usize::from(*byte)])
}

/// What a unit reads as, and whether a cell was corrected. `None`: two cells are wrong.
fn decode(bytes: [u8; 8], found: u8) -> Option<([u8; 8], bool)> {
    let wrong = checks(&bytes) ^ found;
    match wrong.count_ones() {
        0 => Some((bytes, false)),
        1 => Some((bytes, true)),
        count if count % 2 == 0 => None,
        _ => (0..64).find_map(|bit| {
            let mut right = bytes;
            right[bit / 8] ^= 1 << (bit % 8);
            (checks(&right) == found).then_some((right, true))
        }),
    }
}

/// Why a unit can't be read or written.
#[derive(Debug)]
pub enum Fault {
    TwoWrongCells,
    /// It reads as erased, and a cell of it is not.
    NearlyErased,
    NotErased,
}

impl From<Infallible> for Fault {
    fn from(never: Infallible) -> Fault {
        match never {}
    }
}

pub struct Ecc(Nvmc);

impl Ecc {
    fn words(&mut self, offset: u32) -> Result<([u8; 8], [u8; 4]), Fault> {
        let (mut bytes, mut checks) = ([0; 8], [0; 4]);
        self.0.read(offset, &mut bytes)?;
        self.0.read(CHECKS + (offset - START) / 2, &mut checks)?;
        Ok((bytes, checks))
    }
}

impl FlashDriver for Ecc {
    type Error = Fault;
    const READ_SIZE: usize = 8;
    const WRITE_SIZE: usize = 8;
    // Its checks are what the chip's flash erases at once.
    const ERASE_SIZE: usize = 2048;

    fn capacity(&self) -> usize {
        CHECKS as usize
    }

    fn read(&mut self, offset: u32, bytes: &mut [u8]) -> Result<(), Fault> {
        for (at, unit) in (offset..).step_by(8).zip(bytes.chunks_exact_mut(8)) {
            let (found, [check, ..]) = self.words(at)?;
            let (right, corrected) = decode(found, check).ok_or(Fault::TwoWrongCells)?;
            if corrected && right == [0xff; 8] {
                return Err(Fault::NearlyErased);
            }
            unit.copy_from_slice(&right);
        }
        Ok(())
    }

    fn write(&mut self, offset: u32, bytes: &[u8]) -> Result<(), Fault> {
        for (at, unit) in (offset..).step_by(8).zip(bytes.chunks_exact(8)) {
            if self.words(at)? != ([0xff; 8], [0xff; 4]) {
                return Err(Fault::NotErased);
            }
            self.0.write(at, unit)?;
            self.0.write(CHECKS + (at - START) / 2, &[checks(unit), 0xff, 0xff, 0xff])?;
        }
        Ok(())
    }

    fn erase(&mut self, from: u32, to: u32) -> Result<(), Fault> {
        self.0.erase(from, to)?;
        Ok(self.0.erase(CHECKS + (from - START) / 2, CHECKS + (to - START) / 2)?)
    }
}
