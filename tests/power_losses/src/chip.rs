// SPDX-License-Identifier: MIT OR Apache-2.0
//! A flash that is played in memory, with units of any size: the driver that a chip would have.

use wuzhikar_log::FlashDriver;

use crate::code::{Code, Read};
use crate::doubtful::is_word;
use crate::power::{ChipError, Fate, Operation, Power};
use crate::random::Random;

/// What the cells of a flash do where an operation is torn.
#[derive(Clone, Copy, Debug, Default, PartialEq, Eq)]
pub struct Cells {
    /// A cell that a torn operation was to change may read as set at one read and as clear at the next, until a whole operation
    /// fixes it.
    pub waver: bool,
    /// An erase first programs each cell to 0.
    pub program_first: bool,
}

/// Cells that read the same each time, in a flash whose erase only sets bits.
pub const STEADY: Cells = Cells { waver: false, program_first: false };

/// Cells of both kinds.
pub const WAVERING: Cells = Cells { waver: true, program_first: true };

/// Which units may be written again that are not erased.
#[derive(Clone, Copy, Debug, PartialEq, Eq)]
pub enum Again {
    Never,
    /// With the same bits as before, or with zeros.
    SameBits,
    /// With any bits.
    Any,
}

/// Write units of `WRITE` bytes, each with the cells of its check if the flash has error correction; erase units of `ERASE` bytes;
/// reads of `READ`. Each write unit is written once between two erases, if the chip takes it not again.
#[derive(Debug)]
pub struct Chip<const READ: usize, const WRITE: usize, const ERASE: usize> {
    cells: Cells,
    again: Again,
    code: Option<Code>,
    units: Vec<Unit<WRITE>>,
    power: Power,
    random: Random,
}

/// The cells of a unit: what each is, and whether it is in doubt.
#[derive(Clone, Copy, Debug)]
struct Unit<const WRITE: usize> {
    data: [u8; WRITE],
    doubt: [u8; WRITE],
    check: u16,
    check_doubt: u16,
    /// What was written last since a whole erase, torn or not.
    written: Option<[u8; WRITE]>,
}

impl<const WRITE: usize> Unit<WRITE> {
    const ERASED: Self = Unit { data: [0xFF; WRITE], doubt: [0; WRITE], check: u16::MAX, check_doubt: 0, written: None };

    fn is_erased(&self, check: u16) -> bool {
        let data = self.data.iter().zip(self.doubt).all(|(byte, doubt)| byte | doubt == 0xFF);
        data && self.check | self.check_doubt == check
    }

    /// Whether a chip that takes the same bits again takes these.
    fn takes_again(&self, bytes: &[u8]) -> bool {
        self.written.is_none_or(|written| written == bytes) || bytes.iter().all(|&byte| byte == 0)
    }
}

/// Which cells of a unit change, and those of its check.
type Mask<const WRITE: usize> = ([u8; WRITE], u16);

impl<const READ: usize, const WRITE: usize, const ERASE: usize> Chip<READ, WRITE, ERASE> {
    /// An erased flash without error correction.
    pub fn plain(capacity: usize, cells: Cells, power: Power, seed: u64) -> Self {
        let units = vec![Unit::ERASED; capacity / WRITE];
        Chip { cells, again: Again::Never, code: None, units, power, random: Random::from_seed(seed) }
    }

    /// The same, which takes writes again.
    pub fn again(self, again: Again) -> Self {
        Chip { again, ..self }
    }

    /// The same with other cells.
    pub fn with_cells(self, cells: Cells) -> Self {
        Chip { cells, ..self }
    }

    /// A flash that a plain log may be on: its erase only sets bits. A torn cell wavers all the same.
    pub fn into_plain(self) -> Self {
        let cells = Cells { program_first: false, ..self.cells };
        self.with_cells(cells).again(Again::Any)
    }

    /// An erased flash with error correction over each write unit.
    pub fn corrected(capacity: usize, cells: Cells, power: Power, seed: u64) -> Self {
        let code = Code::for_bytes(WRITE);
        let erased = Unit { check: code.erased(), ..Unit::ERASED };
        let units = vec![erased; capacity / WRITE];
        Chip { cells, again: Again::Never, units, code: Some(code), power, random: Random::from_seed(seed) }
    }

    /// Turns some cells of the first eight bytes of a unit.
    #[cfg(test)]
    pub fn turn(&mut self, unit: usize, bits: u64) {
        self.units[unit].data.iter_mut().zip(bits.to_le_bytes()).for_each(|(cell, bits)| *cell ^= bits);
    }

    /// A unit as it is read now, and whether a bit was corrected in it.
    pub fn unit(&mut self, unit: usize) -> Result<([u8; WRITE], bool), ChipError> {
        let Unit { mut data, doubt, mut check, check_doubt, .. } = self.units[unit];
        if self.cells.waver {
            let random = &mut self.random;
            data.iter_mut()
                .zip(doubt)
                .filter(|(_, doubt)| *doubt != 0)
                .for_each(|(byte, doubt)| *byte ^= random.next() as u8 & doubt);
            check ^= random.next() as u16 & check_doubt;
        }
        match self.code.as_ref().map_or(Read::Clean, |code| code.read(&data, check)) {
            Read::Clean => Ok((data, false)),
            Read::Corrected(bit) => {
                if let Some(byte) = data.get_mut(bit / 8) {
                    *byte ^= 1 << (bit % 8);
                }
                Ok((data, true))
            }
            Read::Error => Err(ChipError::Uncorrectable),
        }
    }

    fn misuse<T>(&self, how: &'static str) -> Result<T, ChipError> {
        self.power.misused(how);
        Err(ChipError::Misuse(how))
    }

    /// The write units of a range of whole units inside the flash.
    fn range(&self, from: u32, length: usize, unit: usize) -> Result<std::ops::Range<usize>, ChipError> {
        if from as usize % unit != 0 || length % unit != 0 || length == 0 {
            return self.misuse("a call that is not aligned");
        }
        if from as usize + length > self.units.len() * WRITE {
            return self.misuse("a call beyond the flash");
        }
        Ok(from as usize / WRITE..(from as usize + length) / WRITE)
    }

    /// Which cells of a unit change in an operation that is torn.
    fn torn(&mut self) -> Mask<WRITE> {
        let mut mask = [0; WRITE];
        let kind = self.random.below(10);
        if kind >= 8 {
            // All cells of the data but one, or just one, which a correction mistakes most easily for another.
            let bit = self.random.below(8 * WRITE);
            mask[bit / 8] = 1 << (bit % 8);
            if kind == 8 {
                mask.iter_mut().for_each(|byte| *byte = !*byte);
            }
            return (mask, self.random.next() as u16);
        }
        for part in mask.chunks_mut(8) {
            part.copy_from_slice(&self.random.mask_of(kind).to_le_bytes()[..part.len()]);
        }
        (mask, self.random.mask_of(kind) as u16)
    }

    /// Those cells of a torn operation that waver from now on; each other one is as the operation wants it.
    fn wavers(&mut self) -> u16 {
        if self.cells.waver { self.random.next() as u16 } else { 0 }
    }

    /// Clears cells of a unit where these bytes have a 0: as far as the mask lets it, where the operation is torn.
    fn clear(&mut self, unit: usize, bytes: &[u8], mask: Option<Mask<WRITE>>) {
        let (mask, check_mask, torn) = mask.map_or(([0xFF; WRITE], u16::MAX, false), |(mask, check)| (mask, check, true));
        let check = self.code.as_ref().map_or(u16::MAX, |code| code.check(bytes));
        for (i, (byte, mask)) in bytes.iter().zip(mask).enumerate() {
            let wavers = if torn { self.wavers() as u8 } else { 0 };
            let of = &mut self.units[unit];
            let changed = (of.data[i] | of.doubt[i]) & !byte & mask;
            of.data[i] &= !(changed & !wavers);
            of.doubt[i] = of.doubt[i] & !changed | changed & wavers;
        }
        let wavers = if torn { self.wavers() } else { 0 };
        let of = &mut self.units[unit];
        let changed = (of.check | of.check_doubt) & !check & check_mask;
        of.check &= !(changed & !wavers);
        of.check_doubt = of.check_doubt & !changed | changed & wavers;
    }

    /// Sets the cells of a unit, as far as the mask lets it.
    fn set(&mut self, unit: usize, (mask, check_mask): Mask<WRITE>) {
        for (i, mask) in mask.into_iter().enumerate() {
            let wavers = self.wavers() as u8;
            let of = &mut self.units[unit];
            let changed = (!of.data[i] | of.doubt[i]) & mask;
            of.data[i] |= changed & !wavers;
            of.doubt[i] = of.doubt[i] & !changed | changed & wavers;
        }
        let erased = self.code.as_ref().map_or(0, Code::erased);
        let wavers = self.wavers();
        let of = &mut self.units[unit];
        let changed = (!of.check | of.check_doubt) & check_mask & erased;
        of.check |= changed & !wavers;
        of.check_doubt = of.check_doubt & !changed | changed & wavers;
    }

    /// Tears the erase of a unit: in its first part, which programs to 0, where the flash has one, or in the other.
    fn tear_erase(&mut self, unit: usize, in_first: bool) {
        let mask = self.torn();
        if in_first {
            return self.clear(unit, &[0; WRITE], Some(mask));
        }
        if self.cells.program_first {
            self.clear(unit, &[0; WRITE], None);
        }
        self.set(unit, mask);
    }

    /// Of a torn erase no mark reads as a word that it did not hold (`MarkedFlash`).
    fn forges_nothing(&mut self, torn: std::ops::Range<usize>, before: &[u8]) {
        let after: Vec<u8> = self.units[torn.clone()].iter().flat_map(|unit| unit.data).collect();
        for (at, (now, before)) in after.chunks_exact(8).zip(before.chunks_exact(8)).enumerate() {
            let bits = u64::from_le_bytes(std::array::from_fn(|byte| now[byte]));
            if now != before && is_word(bits) {
                let first = torn.start + 8 * at / WRITE;
                self.units[first..first + 8usize.div_ceil(WRITE)].iter_mut().for_each(|unit| unit.data.fill(0));
            }
        }
    }

    /// What is answered of an operation that was not made whole. With error correction one that was torn while the power stayed on
    /// may be told as done.
    fn unmade(&mut self) -> Result<(), ChipError> {
        let tells = self.code.is_none() || self.power.is_off() || self.random.below(2) == 0;
        if tells { Err(ChipError::Torn) } else { Ok(()) }
    }

    /// How many of so many units are whole where an operation on them has this fate: those behind the torn one are as they were.
    fn whole(&mut self, fate: Fate, units: usize) -> Result<usize, ChipError> {
        match fate {
            Fate::Nothing => Err(ChipError::Torn),
            Fate::Whole => Ok(units),
            Fate::Torn => Ok(self.random.below(units)),
        }
    }
}

impl<const READ: usize, const WRITE: usize, const ERASE: usize> FlashDriver for Chip<READ, WRITE, ERASE> {
    type Error = ChipError;
    const READ_SIZE: usize = READ;
    const WRITE_SIZE: usize = WRITE;
    const ERASE_SIZE: usize = ERASE;

    fn capacity(&self) -> usize {
        self.units.len() * WRITE
    }

    /// With error correction a read lies in one unit, and FFh is answered only where each cell is set.
    fn read(&mut self, offset: u32, bytes: &mut [u8]) -> Result<(), ChipError> {
        if offset as usize % READ != 0 || bytes.len() % READ != 0 || offset as usize + bytes.len() > self.capacity() {
            return self.misuse("a read that is not aligned, or beyond the flash");
        }
        let (first, within) = (offset as usize / WRITE, offset as usize % WRITE);
        if self.code.is_some() && within + bytes.len() > WRITE {
            return self.misuse("a read over two units");
        }
        let mut at = within;
        let mut unit = first;
        let mut left = bytes;
        while !left.is_empty() {
            let (data, corrected) = self.unit(unit)?;
            let length = left.len().min(WRITE - at);
            let (part, rest) = left.split_at_mut(length);
            part.copy_from_slice(&data[at..at + length]);
            if corrected && part.iter().all(|&byte| byte == 0xFF) {
                return Err(ChipError::Uncorrectable);
            }
            (unit, at, left) = (unit + 1, 0, rest);
        }
        Ok(())
    }

    fn write(&mut self, offset: u32, bytes: &[u8]) -> Result<(), ChipError> {
        let range = self.range(offset, bytes.len(), WRITE)?;
        if self.code.is_some() && range.len() > 1 {
            return self.misuse("a write of more than a unit");
        }
        let erased = self.code.as_ref().map_or(u16::MAX, Code::erased);
        let parts: Vec<&[u8]> = bytes.chunks(WRITE).collect();
        let again = self.again;
        let takes = |(unit, part): (&Unit<WRITE>, &&[u8])| match again {
            Again::Never => unit.is_erased(erased),
            Again::SameBits => unit.takes_again(part),
            Again::Any => true,
        };
        if !self.units[range.clone()].iter().zip(&parts).all(takes) {
            return self.misuse("a write of a unit that is not erased");
        }
        let fate = self.power.next(Operation::Write, &mut self.random);
        let whole = self.whole(fate, range.len())?;
        for (unit, part) in range.clone().zip(&parts[..whole]) {
            self.units[unit].written = Some(std::array::from_fn(|at| part[at]));
            self.clear(unit, part, None);
        }
        if fate == Fate::Whole {
            return Ok(());
        }
        let mask = self.torn();
        self.units[range.start + whole].written = Some(std::array::from_fn(|at| parts[whole][at]));
        self.clear(range.start + whole, parts[whole], Some(mask));
        self.unmade()
    }

    fn erase(&mut self, from: u32, to: u32) -> Result<(), ChipError> {
        let range = self.range(from, to.saturating_sub(from) as usize, ERASE)?;
        let fate = self.power.next(Operation::Erase, &mut self.random);
        let of_one = ERASE / WRITE;
        let whole = range.start + of_one * self.whole(fate, range.len() / of_one)?;
        let erased = Unit { check: self.code.as_ref().map_or(u16::MAX, Code::erased), ..Unit::ERASED };
        self.units[range.start..whole].fill(erased);
        if fate == Fate::Whole {
            return Ok(());
        }
        let in_first = self.cells.program_first && self.random.below(2) == 0;
        let torn = whole..whole + of_one;
        let before: Vec<u8> = self.units[torn.clone()].iter().flat_map(|unit| unit.data).collect();
        for unit in torn.clone() {
            self.tear_erase(unit, in_first);
        }
        self.forges_nothing(torn, &before);
        self.unmade()
    }

    fn give_up(&mut self) {
        self.power.give_up();
    }
}
