// SPDX-License-Identifier: MIT OR Apache-2.0
//! Units of a flash with error correction, below `PairedFlash`; and the adapter of a flash without it.

use wuzhikar::Standard;
use wuzhikar_log::{EccFlash, FlashFault, MountError, PAGE_UNITS, PairedFlash, SLOT_BYTES, SlotFlash, UnitFlash};

use super::first_broken;
use crate::chip::{Cells, Chip};
use crate::flashes::{Adapter, Paired};
use crate::power::Power;
use crate::subjects::{Keyboard, Settings};

type Unit = [u8; SLOT_BYTES];

/// A chip with units of 8 bytes.
type Corrected = Chip<1, 8, 2048>;

const BLANK: Unit = [0xFF; SLOT_BYTES];

/// What is wrong.
const NOTHING: u8 = 0;
const A_PROGRAM_IS_NOT_READ_BACK: u8 = 1;
const AN_ERROR_READS_AS_BLANK: u8 = 2;
const AN_ERROR_IN_THE_SECOND_UNIT_READS_AS_FREE: u8 = 3;
const A_PAGE_WITH_AN_ERROR_IS_ERASED: u8 = 4;
const SLOTS_SHARE_A_UNIT: u8 = 5;
const NOTHING_IS_EVER_STORED: u8 = 6;
const AN_ERASE_IS_NOT_READ_BACK: u8 = 7;

/// The units of a flash, but for one point.
#[derive(Debug)]
struct Wrong<const HOW: u8> {
    units: UnitFlash<Corrected>,
    /// What reads as it was meant until the next operation: page, unit and bytes; or a whole page, as blank.
    trusted: Option<(usize, Option<usize>, Unit)>,
}

impl<const HOW: u8> Wrong<HOW> {
    fn place(&self, unit: usize) -> usize {
        if HOW == SLOTS_SHARE_A_UNIT { unit / 2 + unit % 2 } else { unit }
    }

    fn is_error(&self, page: usize, unit: usize) -> bool {
        self.units.read_unit(page, unit).is_none()
    }
}

impl<const HOW: u8> EccFlash for Wrong<HOW> {
    fn pages(&self) -> usize {
        self.units.pages()
    }

    fn read_unit(&self, page: usize, unit: usize) -> Option<Unit> {
        let read = self.units.read_unit(page, self.place(unit));
        match (HOW, self.trusted) {
            (_, Some((of, at, bytes))) if of == page && at.is_none_or(|at| at == unit) => Some(bytes),
            (AN_ERROR_READS_AS_BLANK, _) => read.or(Some(BLANK)),
            (AN_ERROR_IN_THE_SECOND_UNIT_READS_AS_FREE, _) if self.is_error(page, unit | 1) => Some(BLANK),
            _ => read,
        }
    }

    fn program_unit(&mut self, page: usize, unit: usize, bytes: Unit) -> Result<(), FlashFault> {
        let at = self.place(unit);
        self.trusted = (HOW == A_PROGRAM_IS_NOT_READ_BACK).then_some((page, Some(unit), bytes));
        if HOW == NOTHING_IS_EVER_STORED {
            return Err(FlashFault);
        }
        if HOW == A_PAGE_WITH_AN_ERROR_IS_ERASED && (0..PAGE_UNITS).any(|unit| self.is_error(page, unit)) {
            self.units.erase_units(page)?;
        }
        self.units.program_unit(page, at, bytes)
    }

    fn erase_units(&mut self, page: usize) -> Result<(), FlashFault> {
        self.trusted = (HOW == AN_ERASE_IS_NOT_READ_BACK).then_some((page, None, BLANK));
        self.units.erase_units(page)
    }
}

impl<const HOW: u8> Adapter for PairedFlash<Wrong<HOW>> {
    type Chip = Corrected;

    fn blank(pages: usize, cells: Cells, power: Power, seed: u64) -> Corrected {
        Paired::<8, 2048>::blank(pages, cells, power, seed)
    }

    fn start(chip: Corrected, pages: usize) -> Result<Self, (Self::Chip, MountError)> {
        let units = UnitFlash::new(chip, 0, pages).expect("a geometry that serves");
        Ok(PairedFlash::mount(Wrong { units, trusted: None }))
    }

    fn stop(self) -> Corrected {
        self.into_flash().units.into_driver()
    }
}

/// The adapter of a flash without error correction, on one with it.
struct Slots(SlotFlash<Corrected>);

impl wuzhikar_log::NorFlash for Slots {
    fn pages(&self) -> usize {
        self.0.pages()
    }

    fn read_slot(&self, page: usize, slot: usize) -> Unit {
        self.0.read_slot(page, slot)
    }

    fn program_slot(&mut self, page: usize, slot: usize, bytes: Unit) -> Result<(), FlashFault> {
        self.0.program_slot(page, slot, bytes)
    }

    fn erase_page(&mut self, page: usize) -> Result<(), FlashFault> {
        self.0.erase_page(page)
    }
}

impl Adapter for Slots {
    type Chip = Corrected;

    fn blank(pages: usize, cells: Cells, power: Power, seed: u64) -> Corrected {
        Paired::<8, 2048>::blank(pages, cells, power, seed)
    }

    fn start(chip: Corrected, pages: usize) -> Result<Self, (Self::Chip, MountError)> {
        Ok(Slots(SlotFlash::new(chip, 0, pages).expect("a geometry that serves")))
    }

    fn stop(self) -> Corrected {
        self.0.into_driver()
    }
}

#[test]
fn what_has_nothing_wrong_passes() {
    assert!(first_broken::<Settings, PairedFlash<Wrong<NOTHING>>>().is_ok());
    assert!(first_broken::<Keyboard<Standard>, PairedFlash<Wrong<NOTHING>>>().is_ok());
}

/// Whether settings and a keyboard each find it.
fn is_found<const HOW: u8>() {
    assert!(first_broken::<Settings, PairedFlash<Wrong<HOW>>>().is_err());
    assert!(first_broken::<Keyboard<Standard>, PairedFlash<Wrong<HOW>>>().is_err());
}

#[test]
fn what_is_not_read_back_is_found() {
    is_found::<A_PROGRAM_IS_NOT_READ_BACK>();
    is_found::<AN_ERASE_IS_NOT_READ_BACK>();
}

#[test]
fn an_error_that_reads_as_blank_is_found() {
    is_found::<AN_ERROR_READS_AS_BLANK>();
    is_found::<AN_ERROR_IN_THE_SECOND_UNIT_READS_AS_FREE>();
}

#[test]
fn a_page_that_is_erased_in_use_is_found() {
    is_found::<A_PAGE_WITH_AN_ERROR_IS_ERASED>();
}

#[test]
fn units_that_are_shared_are_found() {
    is_found::<SLOTS_SHARE_A_UNIT>();
}

#[test]
fn a_flash_that_stores_nothing_is_found() {
    is_found::<NOTHING_IS_EVER_STORED>();
}

#[test]
fn an_adapter_without_error_correction_is_found() {
    assert!(first_broken::<Settings, Slots>().is_err());
}
