// SPDX-License-Identifier: MIT OR Apache-2.0
//! Adapters of a flash without error correction.

use std::cell::RefCell;

use wuzhikar_log::{FlashDriver, FlashFault, MountError, NorFlash, PAGE_SLOTS, SLOT_BYTES};

use super::{first_broken, loses};
use crate::chip::{Cells, Chip};
use crate::flashes::Adapter;
use crate::power::Power;
use crate::subjects::{Log, Settings};

/// What is wrong.
const NOTHING: u8 = 0;
const SLOTS_SHARE_A_WRITE_UNIT: u8 = 1;
const PAGES_SHARE_AN_ERASE_UNIT: u8 = 2;
const A_FAULT_OF_A_WRITE_IS_OK: u8 = 3;
const A_FAULT_OF_AN_ERASE_IS_OK: u8 = 4;
const THE_FIRST_ERASE_UNIT_ALONE_IS_ERASED: u8 = 5;
const THE_PAGE_BEFORE_IS_ERASED_TOO: u8 = 6;
const A_WRITE_IS_LEFT_OUT: u8 = 7;

/// An adapter with one page behind the other from byte 0 on.
struct Wrong<const HOW: u8, const WRITE: usize, const ERASE: usize> {
    chip: RefCell<Chip<1, WRITE, ERASE>>,
    pages: usize,
    writes: u32,
}

impl<const HOW: u8, const WRITE: usize, const ERASE: usize> Wrong<HOW, WRITE, ERASE> {
    const SLOT: usize = if HOW == SLOTS_SHARE_A_WRITE_UNIT || WRITE < SLOT_BYTES { SLOT_BYTES } else { WRITE };
    const WHOLE: usize = (PAGE_SLOTS * Self::SLOT).next_multiple_of(ERASE);
    const PAGE: usize = if HOW == PAGES_SHARE_AN_ERASE_UNIT { PAGE_SLOTS * Self::SLOT } else { Self::WHOLE };

    fn offset(page: usize, slot: usize) -> usize {
        page * Self::PAGE + slot * Self::SLOT
    }
}

impl<const HOW: u8, const WRITE: usize, const ERASE: usize> Adapter for Wrong<HOW, WRITE, ERASE> {
    type Chip = Chip<1, WRITE, ERASE>;

    fn blank(pages: usize, cells: Cells, power: Power, seed: u64) -> Self::Chip {
        Chip::plain(pages * Self::WHOLE, cells, power, seed)
    }

    fn start(chip: Self::Chip, pages: usize) -> Result<Self, (Self::Chip, MountError)> {
        Ok(Wrong { chip: RefCell::new(chip), pages, writes: 0 })
    }

    fn stop(self) -> Self::Chip {
        self.chip.into_inner()
    }
}

impl<const HOW: u8, const WRITE: usize, const ERASE: usize> NorFlash for Wrong<HOW, WRITE, ERASE> {
    fn pages(&self) -> usize {
        self.pages
    }

    fn read_slot(&self, page: usize, slot: usize) -> [u8; SLOT_BYTES] {
        let mut bytes = [0; SLOT_BYTES];
        self.chip.borrow_mut().read(Self::offset(page, slot) as u32, &mut bytes).expect("a read");
        bytes
    }

    fn program_slot(&mut self, page: usize, slot: usize, bytes: [u8; SLOT_BYTES]) -> Result<(), FlashFault> {
        self.writes += 1;
        if HOW == A_WRITE_IS_LEFT_OUT && self.writes % 100 == 0 {
            return Ok(());
        }
        let at = Self::offset(page, slot);
        let unit = at - at % WRITE;
        let mut filled = vec![0xFF; SLOT_BYTES.max(WRITE)];
        filled[at - unit..][..SLOT_BYTES].copy_from_slice(&bytes);
        match self.chip.get_mut().write(unit as u32, &filled) {
            Err(_) if HOW != A_FAULT_OF_A_WRITE_IS_OK => Err(FlashFault),
            _ => Ok(()),
        }
    }

    fn erase_page(&mut self, page: usize) -> Result<(), FlashFault> {
        let at = Self::offset(page, 0);
        let from = match HOW {
            PAGES_SHARE_AN_ERASE_UNIT => at - at % ERASE,
            THE_PAGE_BEFORE_IS_ERASED_TOO if page > 0 => at - Self::PAGE,
            _ => at,
        };
        let to = match HOW {
            PAGES_SHARE_AN_ERASE_UNIT => (at + Self::PAGE).next_multiple_of(ERASE),
            THE_FIRST_ERASE_UNIT_ALONE_IS_ERASED => at + ERASE,
            _ => at + Self::PAGE,
        };
        match self.chip.get_mut().erase(from as u32, to as u32) {
            Err(_) if HOW != A_FAULT_OF_AN_ERASE_IS_OK => Err(FlashFault),
            _ => Ok(()),
        }
    }
}

#[test]
fn what_has_nothing_wrong_passes() {
    assert!(first_broken::<Settings, Wrong<NOTHING, 8, 2048>>().is_ok());
    assert!(first_broken::<Log, Wrong<NOTHING, 16, 8192>>().is_ok());
    assert!(first_broken::<Log, Wrong<NOTHING, 8, 65536>>().is_ok());
}

#[test]
fn slots_that_share_a_write_unit_are_found() {
    assert!(first_broken::<Settings, Wrong<SLOTS_SHARE_A_WRITE_UNIT, 16, 8192>>().is_err());
    assert!(first_broken::<Log, Wrong<SLOTS_SHARE_A_WRITE_UNIT, 16, 8192>>().is_err());
}

#[test]
fn pages_that_share_an_erase_unit_lose_values() {
    assert!(loses::<Settings, Wrong<PAGES_SHARE_AN_ERASE_UNIT, 8, 65536>>());
    assert!(loses::<Log, Wrong<PAGES_SHARE_AN_ERASE_UNIT, 8, 65536>>());
}

#[test]
fn faults_reported_as_success_lose_values() {
    assert!(loses::<Settings, Wrong<A_FAULT_OF_A_WRITE_IS_OK, 8, 4096>>());
    assert!(first_broken::<Log, Wrong<A_FAULT_OF_A_WRITE_IS_OK, 8, 4096>>().is_err());
    assert!(first_broken::<Settings, Wrong<A_FAULT_OF_AN_ERASE_IS_OK, 8, 4096>>().is_err());
}

#[test]
fn an_erase_of_too_little_or_too_much_loses_values() {
    assert!(loses::<Settings, Wrong<THE_FIRST_ERASE_UNIT_ALONE_IS_ERASED, 8, 2048>>());
    assert!(loses::<Settings, Wrong<THE_PAGE_BEFORE_IS_ERASED_TOO, 8, 4096>>());
}

#[test]
fn a_write_that_is_left_out_loses_values() {
    assert!(loses::<Settings, Wrong<A_WRITE_IS_LEFT_OUT, 8, 4096>>());
    assert!(first_broken::<Log, Wrong<A_WRITE_IS_LEFT_OUT, 8, 4096>>().is_err());
}
