//! A flash that is right, and one that is wrong for each fault.

use super::*;
use crate::parts::flash_model::FlashFault;
use crate::ram::Ram;
use crate::{FlashDriver, PairedFlash, SlotFlash, UnitFlash};
use core::cell::Cell;
use std::string::ToString;
use std::vec;
use std::vec::Vec;

/// What a flash does wrong.
#[derive(Clone, Copy, Debug, PartialEq)]
enum Wrong {
    Nothing,
    RefusesErases,
    ErasesHalf,
    ErasesNothing,
    ErasesTheNextToo,
    ErasesTheOneBeforeToo,
    RefusesPrograms,
    SwapsHalves,
    ProgramsHalf,
    ProgramsNothing,
    HasShortPages,
    ProgramsTheNextToo,
    ProgramsTheOneBeforeToo,
    Overwrites,
    IgnoresSecondPrograms,
    RuinsSecondPrograms,
    ReadsOtherwiseNow,
}

/// Pages in memory that hold something, and what is wrong with them.
struct Pages {
    slots: Vec<[u8; 8]>,
    pages: usize,
    wrong: Wrong,
    reads: Cell<u8>,
}

impl Pages {
    fn new(pages: usize, wrong: Wrong) -> Pages {
        Pages { slots: vec![[0x5A; 8]; (pages + 1) * PAGE_SLOTS], pages, wrong, reads: Cell::new(0) }
    }

    fn at(&self, page: usize, slot: usize) -> usize {
        if self.wrong == Wrong::HasShortPages { PAGE_SLOTS / 2 * page + slot } else { PAGE_SLOTS * page + slot }
    }
}

impl NorFlash for Pages {
    fn pages(&self) -> usize {
        self.pages
    }

    fn read_slot(&self, page: usize, slot: usize) -> [u8; 8] {
        let mut bytes = self.slots[self.at(page, slot)];
        if self.wrong == Wrong::ReadsOtherwiseNow {
            self.reads.set(self.reads.get().wrapping_add(1));
            bytes[7] ^= u8::from(self.reads.get() == 200);
        }
        bytes
    }

    fn program_slot(&mut self, page: usize, slot: usize, mut bytes: [u8; 8]) -> Result<(), FlashFault> {
        let at = self.at(page, slot);
        let again = self.slots[at] != [0xFF; 8];
        match self.wrong {
            Wrong::RefusesPrograms => return Err(FlashFault),
            Wrong::ProgramsNothing => return Ok(()),
            Wrong::IgnoresSecondPrograms if again => return Ok(()),
            Wrong::RuinsSecondPrograms if again => {
                self.slots[at] = [0; 8];
                return Err(FlashFault);
            }
            Wrong::SwapsHalves => bytes.rotate_left(4),
            Wrong::ProgramsHalf => bytes[4..].fill(0xFF),
            Wrong::ProgramsTheNextToo if slot + 1 < PAGE_SLOTS => self.slots[at + 1][0] = 0,
            Wrong::ProgramsTheOneBeforeToo if slot > 0 => self.slots[at - 1][0] = 0,
            Wrong::Overwrites => self.slots[at] = bytes,
            _ => {}
        }
        self.slots[at].iter_mut().zip(bytes).for_each(|(cell, byte)| *cell &= byte);
        Ok(())
    }

    fn erase_page(&mut self, page: usize) -> Result<(), FlashFault> {
        let (mut from, mut to) = (self.at(page, 0), self.at(page, PAGE_SLOTS));
        match self.wrong {
            Wrong::RefusesErases => return Err(FlashFault),
            Wrong::ErasesNothing => to = from,
            Wrong::ErasesHalf => to -= PAGE_SLOTS / 2,
            Wrong::ErasesTheNextToo => to += PAGE_SLOTS,
            Wrong::ErasesTheOneBeforeToo if page > 0 => from -= PAGE_SLOTS,
            _ => {}
        }
        self.slots[from..to].fill([0xFF; 8]);
        Ok(())
    }
}

#[test]
fn a_right_flash_passes_and_is_blank() {
    for pages in 2..=8 {
        let mut flash = Pages::new(pages, Wrong::Nothing);
        assert_eq!(check_driver(&mut flash), Ok(()));
        assert!(flash.slots[..pages * PAGE_SLOTS].iter().all(|&slot| slot == [0xFF; 8]));
    }
}

#[test]
fn the_adapters_pass_on_a_chip_that_takes_no_second_program() {
    let mut flash = SlotFlash::new(Ram::<1, 16, 8192>::new(5 * 8192), 8192, 3).expect("served");
    assert_eq!(check_driver(&mut flash), Ok(()));
    let units = UnitFlash::new(Ram::<1, 8, 2048>::new(16384), 0, 2).expect("served");
    assert_eq!(check_driver(&mut PairedFlash::mount(units)), Ok(()));
}

/// A driver of units whose bytes come in another order, or whose writes to one page fail.
struct Turned {
    ram: Ram<1, 8, 2048>,
    turn: fn(&mut [u8]),
    fails_at: u32,
}

impl FlashDriver for Turned {
    type Error = &'static str;
    const READ_SIZE: usize = 1;
    const WRITE_SIZE: usize = 8;
    const ERASE_SIZE: usize = 2048;

    fn capacity(&self) -> usize {
        self.ram.capacity()
    }

    fn read(&mut self, offset: u32, bytes: &mut [u8]) -> Result<(), &'static str> {
        self.ram.read(offset, bytes)
    }

    fn write(&mut self, offset: u32, bytes: &[u8]) -> Result<(), &'static str> {
        if offset == self.fails_at {
            return Err("worn");
        }
        let mut turned: Vec<u8> = bytes.into();
        (self.turn)(&mut turned);
        self.ram.write(offset, &turned)
    }

    fn erase(&mut self, from: u32, to: u32) -> Result<(), &'static str> {
        self.ram.erase(from, to)
    }
}

#[test]
fn a_wrong_order_of_bytes_is_named_over_error_correction_too() {
    let checked = |turn, fails_at| {
        let driver = Turned { ram: Ram::new(16384), turn, fails_at };
        check_driver(&mut PairedFlash::mount(UnitFlash::new(driver, 0, 2).expect("served")))
    };
    let turns: [fn(&mut [u8]); 3] = [
        |bytes| bytes.reverse(),
        |bytes| bytes.chunks_mut(4).for_each(<[u8]>::reverse),
        |bytes| bytes.chunks_mut(2).for_each(<[u8]>::reverse),
    ];
    for turn in turns {
        assert_eq!(checked(turn, u32::MAX), Err(DriverFault::ByteOrder(Place { page: 0, slot: 0 })));
    }
    // One unit that fails, the first and the last ones of a page, is nothing of the kind.
    for slot in [0, 510, 511] {
        assert_eq!(checked(|_| {}, 16 * slot), Err(DriverFault::ProgramFailed(Place { page: 0, slot: slot as usize })));
    }
    assert_eq!(checked(|bytes| bytes.fill(0), u32::MAX), Err(DriverFault::ProgramFailed(Place { page: 0, slot: 0 })));
}

#[test]
fn each_fault_is_named() {
    let place = |page, slot| Place { page, slot };
    let rows = [
        (Wrong::RefusesErases, DriverFault::EraseFailed { page: 0 }),
        (Wrong::ErasesNothing, DriverFault::NotErased(place(0, 0))),
        (Wrong::ErasesHalf, DriverFault::NotErased(place(0, 256))),
        (Wrong::ErasesTheNextToo, DriverFault::OtherErased(place(1, 0))),
        (Wrong::ErasesTheOneBeforeToo, DriverFault::OtherErased(place(0, 0))),
        (Wrong::RefusesPrograms, DriverFault::ProgramFailed(place(0, 0))),
        (Wrong::SwapsHalves, DriverFault::ByteOrder(place(0, 0))),
        (Wrong::ProgramsHalf, DriverFault::NotProgrammed(place(0, 0))),
        (Wrong::ProgramsNothing, DriverFault::NotProgrammed(place(0, 0))),
        (Wrong::HasShortPages, DriverFault::Shared(place(1, 0))),
        (Wrong::ProgramsTheNextToo, DriverFault::Shared(place(0, 1))),
        (Wrong::ProgramsTheOneBeforeToo, DriverFault::Shared(place(0, 0))),
        (Wrong::Overwrites, DriverFault::BitsSet(place(0, 1))),
        (Wrong::IgnoresSecondPrograms, DriverFault::SecondProgram(place(0, 0))),
        (Wrong::RuinsSecondPrograms, DriverFault::SecondProgram(place(0, 1))),
        (Wrong::ReadsOtherwiseNow, DriverFault::Unsteady(place(0, 99))),
    ];
    for (wrong, fault) in rows {
        assert_eq!(check_driver(&mut Pages::new(3, wrong)), Err(fault), "{wrong:?}");
    }
    for pages in [0, 1, 9] {
        let fault = DriverFault::PageCount(PageCount { pages });
        assert_eq!(check_driver(&mut Pages::new(pages, Wrong::Nothing)), Err(fault));
    }
    let shown = DriverFault::ByteOrder(place(0, 7)).to_string();
    assert_eq!(shown, "page 0, slot 7: reads as its bytes in another order");
}
