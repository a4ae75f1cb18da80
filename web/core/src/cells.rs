//! The cells of a flash with error correction, which is played in memory: tested, not proved.
//!
//! A write unit has 72 cells: 64 of data, and 8 of a check by a code that corrects one wrong cell and tells two. A program
//! clears cells and an erase sets them; a torn one does so with those cells that a mask has, and the power is gone after it.

use crate::memory::Kept;
use alloc::vec::Vec;
use wuzhikar::FlashFault;
use wuzhikar::wuzhikar_log::{EccFlash, PAGE_UNITS, UNIT_BYTES};

/// Bytes of cells of a unit: those of the data, and the check.
pub const UNIT_CELLS: usize = UNIT_BYTES + 1;

/// Bytes of cells of a page.
pub const PAGE_CELLS: usize = PAGE_UNITS * UNIT_CELLS;

static CELLS: Kept<Cells> = Kept::new(Cells { bytes: Vec::new(), power: Power::On });

/// What the cells of a unit read as.
#[derive(Clone, Copy, PartialEq, Eq)]
pub enum Read {
    /// Each cell is set.
    Blank,
    /// The data as it stands.
    Word,
    /// One cell is wrong: the cells with this one turned.
    Corrected([u8; UNIT_CELLS]),
    /// More cells are wrong than are corrected, or a cell is wrong of a unit that would read as FFh.
    Error,
}

enum Power {
    On,
    /// It goes inside the write or erase that comes after so many writes of units, which the mask then tears.
    Goes(u32, Vec<u8>),
    Off,
}

struct Cells {
    bytes: Vec<u8>,
    power: Power,
}

/// The chip, whose cells stand in the module's memory.
pub struct Chip;

impl Chip {
    /// A chip of so many pages, erased.
    pub fn blank(pages: usize) -> Chip {
        CELLS.with(|cells| *cells = Cells { bytes: alloc::vec![0xFF; pages * PAGE_CELLS], power: Power::On });
        Chip
    }
}

/// Tears the operation that comes after `whole` writes of units, an erase in any case; nothing is written after it.
pub fn tear(whole: u32, mask: &[u8]) {
    CELLS.with(|cells| cells.power = Power::Goes(whole, mask.to_vec()));
}

/// The power is there.
pub fn power_on() {
    CELLS.with(|cells| cells.power = Power::On);
}

/// Where the cells stand in memory, and how many bytes they are.
pub fn place() -> (*const u8, usize) {
    CELLS.with(|cells| (cells.bytes.as_ptr(), cells.bytes.len()))
}

/// The cells of a unit, and what they read as; nothing beyond the flash.
pub fn unit(page: usize, unit: usize) -> Option<([u8; UNIT_CELLS], Read)> {
    CELLS.with(|cells| {
        let unit = cells.bytes.chunks_exact(UNIT_CELLS).nth(page * PAGE_UNITS + unit)?.try_into().ok()?;
        Some((unit, read(unit)))
    })
}

impl EccFlash for Chip {
    fn pages(&self) -> usize {
        CELLS.with(|cells| cells.bytes.len() / PAGE_CELLS)
    }

    fn read_unit(&self, page: usize, at: usize) -> Option<[u8; UNIT_BYTES]> {
        let (cells, read) = unit(page, at)?;
        match read {
            Read::Blank | Read::Word => Some(data_of(cells)),
            Read::Corrected(cells) => Some(data_of(cells)),
            Read::Error => None,
        }
    }

    fn program_unit(&mut self, page: usize, unit: usize, bytes: [u8; UNIT_BYTES]) -> Result<(), FlashFault> {
        let wanted = with_check(bytes);
        CELLS.with(|cells| {
            let from = page * PAGE_CELLS + unit * UNIT_CELLS;
            let now = cells.bytes.get_mut(from..from + UNIT_CELLS).ok_or(FlashFault)?;
            cells.power.operation(now, |cell, at, mask| cell & (wanted[at] | !mask), false)
        })
    }

    fn erase_units(&mut self, page: usize) -> Result<(), FlashFault> {
        CELLS.with(|cells| {
            let now = cells.bytes.get_mut(page * PAGE_CELLS..(page + 1) * PAGE_CELLS).ok_or(FlashFault)?;
            cells.power.operation(now, |cell, _, mask| cell | mask, true)
        })
    }
}

impl Power {
    /// Changes cells as far as the power goes: each byte of them by its place and its mask.
    fn operation(&mut self, cells: &mut [u8], change: impl Fn(u8, usize, u8) -> u8, erase: bool) -> Result<(), FlashFault> {
        let torn = match self {
            Power::Off => return Err(FlashFault),
            Power::Goes(whole, mask) if *whole == 0 || erase => Some(core::mem::take(mask)),
            Power::Goes(whole, _) => {
                *whole -= 1;
                None
            }
            Power::On => None,
        };
        for (at, cell) in cells.iter_mut().enumerate() {
            let mask = match &torn {
                Some(mask) => mask.get(at % mask.len().max(1)).copied().unwrap_or(0),
                None => 0xFF,
            };
            *cell = change(*cell, at, mask);
        }
        match torn {
            Some(_) => {
                *self = Power::Off;
                Err(FlashFault)
            }
            None => Ok(()),
        }
    }
}

/// For each cell of the data the cells of the check that it turns where it is clear: an odd number of them, 3 or more, no two
/// the same (Hsiao 1970).
const TURNS: [u8; 64] = {
    let (mut turns, mut at, mut next) = ([0; 64], 0, 0_u8);
    while at < 64 {
        if next.count_ones() % 2 == 1 && next.count_ones() > 1 {
            turns[at] = next;
            at += 1;
        }
        next += 1;
    }
    turns
};

/// For each cell of the check the cells of the data that turn it.
const TURNED_BY: [u64; 8] = {
    let (mut by, mut at) = ([0; 8], 0);
    while at < 512 {
        if TURNS[at / 8] >> (at % 8) & 1 == 1 {
            by[at % 8] |= 1 << (at / 8);
        }
        at += 1;
    }
    by
};

/// The check of eight bytes; that of FFh is FFh.
fn check(data: [u8; UNIT_BYTES]) -> u8 {
    let clear = !u64::from_le_bytes(data);
    TURNED_BY.iter().enumerate().fold(0xFF, |check, (bit, by)| check ^ (((clear & by).count_ones() as u8 & 1) << bit))
}

fn with_check(data: [u8; UNIT_BYTES]) -> [u8; UNIT_CELLS] {
    let [a, b, c, d, e, f, g, h] = data;
    [a, b, c, d, e, f, g, h, check(data)]
}

fn data_of([a, b, c, d, e, f, g, h, _]: [u8; UNIT_CELLS]) -> [u8; UNIT_BYTES] {
    [a, b, c, d, e, f, g, h]
}

fn read(cells: [u8; UNIT_CELLS]) -> Read {
    if cells == [0xFF; UNIT_CELLS] {
        return Read::Blank;
    }
    let data = data_of(cells);
    let wrong = check(data) ^ cells[UNIT_BYTES];
    if wrong == 0 {
        return Read::Word;
    }
    let turned =
        if wrong.is_power_of_two() { Some(0) } else { TURNS.iter().position(|turns| *turns == wrong).map(|bit| 1 << bit) };
    match turned.map(|turned: u64| with_check((u64::from_le_bytes(data) ^ turned).to_le_bytes())) {
        Some(corrected) if corrected != [0xFF; UNIT_CELLS] => Read::Corrected(corrected),
        _ => Read::Error,
    }
}
