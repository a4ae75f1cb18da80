//! Where slots and marks stand, and what is refused.

use super::*;
use crate::ram::Ram;
use crate::{DriverFault, PageCount, Place, SlotFlash, check_marks};

/// Programs each slot and each mark of three pages of this geometry, and reads them again; `triples` marks and `bytes` in all.
fn serves<const READ: usize, const WRITE: usize, const ERASE: usize>(triples: usize, bytes: usize) {
    let start = 3 * ERASE;
    assert_eq!(MarkedUnits::<Ram<READ, WRITE, ERASE>>::bytes(2), Ok(bytes as u64));
    let mut flash = MarkedUnits::new(Ram::<READ, WRITE, ERASE>::new(start + bytes), start as u32, 2).expect("served");
    assert_eq!((flash.pages(), flash.triples()), (3, triples));
    let word = |kind: u8, page: usize, at: usize| [kind, 2, 3, 4, 5, page as u8, at as u8, (at / 256) as u8];
    for page in 0..3 {
        (0..PAGE_SLOTS).for_each(|at| assert_eq!(flash.program_slot(page, at, word(1, page, at)), Ok(())));
        (0..=3 * triples).for_each(|at| assert_eq!(flash.program_mark(page, at, word(2, page, at)), Ok(())));
    }
    assert_eq!((flash.erase_slots(0), flash.erase_marks(2)), (Ok(()), Ok(())));
    for page in 0..3 {
        let of = |is_erased, bytes| if is_erased { [0xFF; 8] } else { bytes };
        (0..PAGE_SLOTS).for_each(|at| assert_eq!(flash.read_slot(page, at), of(page == 0, word(1, page, at))));
        (0..=3 * triples).for_each(|at| assert_eq!(flash.read_mark(page, at), of(page == 2, word(2, page, at))));
    }
    assert!(!flash.is_unreadable());
}

#[test]
fn units_of_many_sizes_serve() {
    serves::<1, 1, 4096>(24, 24576);
    serves::<1, 2, 1024>(24, 15360);
    serves::<4, 4, 4096>(24, 24576);
    // Marks in several erase units, where these are small.
    serves::<1, 8, 128>(10, 13056);
    serves::<1, 256, 4096>(10, 417792);
    serves::<1, 512, 512>(8, 824832);
    serves::<3, 3, 12>(8, 14508);
}

#[test]
fn the_slots_stand_as_those_of_a_plain_flash() {
    let mut plain = SlotFlash::new(Ram::<1, 8, 4096>::new(28672), 4096, 2).expect("served");
    crate::NorFlash::program_slot(&mut plain, 1, 7, [1; 8]).expect("programmed");
    let marked = MarkedUnits::new(plain.into_driver(), 4096, 2).expect("served");
    assert_eq!(marked.read_slot(1, 7), [1; 8]);
}

#[test]
fn what_cannot_serve_is_refused_by_name() {
    let refusal = |capacity, start, pages| MarkedUnits::new(Ram::<1, 8, 4096>::new(capacity), start, pages).err();
    assert_eq!(refusal(1 << 20, 0, 1), Some(GeometryError::Pages));
    assert_eq!(refusal(1 << 20, 0, 9), Some(GeometryError::Pages));
    assert_eq!(refusal(1 << 20, 2048, 2), Some(GeometryError::Start));
    assert_eq!(refusal(24575, 0, 2), Some(GeometryError::Capacity { end: 24576 }));
    assert_eq!(MarkedUnits::<Ram<1, 0, 4096>>::bytes(2), Err(GeometryError::WriteUnit));
    assert_eq!(MarkedUnits::<Ram<3, 8, 4096>>::bytes(2), Err(GeometryError::ReadUnit));
    assert_eq!(MarkedUnits::<Ram<1, 8, 4092>>::bytes(2), Err(GeometryError::EraseUnit));
    assert_eq!(MarkedUnits::<Ram<1, 8, 4096>>::bytes(9), Err(GeometryError::Pages));
}

#[test]
fn after_a_read_that_failed_nothing_is_written() {
    let mut driver = Ram::<1, 8, 4096>::new(24576);
    driver.deaf = true;
    let mut flash = MarkedUnits::new(driver, 0, 2).expect("served");
    assert_eq!(flash.read_mark(0, 0), UNREAD);
    assert!(flash.is_unreadable());
    assert_eq!(flash.program_slot(0, 0, [0; 8]), Err(FlashFault));
    assert_eq!(flash.program_mark(0, 0, [0; 8]), Err(FlashFault));
    assert_eq!((flash.erase_slots(0), flash.erase_marks(0)), (Err(FlashFault), Err(FlashFault)));
    let driver = flash.into_driver();
    assert!(driver.erased.is_empty() && driver.bytes.iter().all(|&byte| byte == 0xFF));
}

/// A flash with pages in memory, and marks that may fail.
struct Marks {
    slots: MarkedUnits<Ram<1, 8, 4096>>,
    pages: usize,
    marks: [[[u8; 8]; 25]; 3],
    how: How,
}

/// What marks do wrong.
#[derive(Clone, Copy, Debug, PartialEq)]
enum How {
    Nothing,
    RefusesTheSameBits,
    RefusesZeros,
    IgnoresTheSecond,
    StaysProgrammed,
    SharesCells,
    GoesWithTheSlots,
}

impl MarkedFlash for Marks {
    fn pages(&self) -> usize {
        self.pages
    }

    fn triples(&self) -> usize {
        8
    }

    fn read_slot(&self, page: usize, slot: usize) -> [u8; 8] {
        self.slots.read_slot(page, slot)
    }

    fn read_mark(&self, page: usize, mark: usize) -> [u8; 8] {
        self.marks[page][mark]
    }

    fn program_slot(&mut self, page: usize, slot: usize, bytes: [u8; 8]) -> Result<(), FlashFault> {
        self.slots.program_slot(page, slot, bytes)
    }

    fn program_mark(&mut self, page: usize, mark: usize, bytes: [u8; 8]) -> Result<(), FlashFault> {
        let again = self.marks[page][mark] != [0xFF; 8];
        match self.how {
            How::RefusesTheSameBits if again => return Err(FlashFault),
            How::RefusesZeros if again && bytes == [0; 8] => return Err(FlashFault),
            How::IgnoresTheSecond if again => return Ok(()),
            How::SharesCells if mark == 7 => self.marks[page][8] = bytes,
            _ => {}
        }
        self.marks[page][mark].iter_mut().zip(bytes).for_each(|(cell, byte)| *cell &= byte);
        Ok(())
    }

    fn erase_slots(&mut self, page: usize) -> Result<(), FlashFault> {
        if self.how == How::GoesWithTheSlots {
            self.marks[page] = [[0xFF; 8]; 25];
        }
        self.slots.erase_slots(page)
    }

    fn erase_marks(&mut self, page: usize) -> Result<(), FlashFault> {
        if self.how != How::StaysProgrammed {
            self.marks[page] = [[0xFF; 8]; 25];
        }
        Ok(())
    }

    fn is_unreadable(&self) -> bool {
        false
    }

    fn give_up(&mut self) {}
}

#[test]
fn a_chip_that_refuses_to_program_a_mark_again_is_named() {
    let place = |page, slot| Place { page, slot };
    let rows = [
        (How::Nothing, Ok(())),
        (How::RefusesTheSameBits, Err(DriverFault::MarkRefused(place(0, 0)))),
        (How::RefusesZeros, Err(DriverFault::MarkRefused(place(0, 0)))),
        (How::IgnoresTheSecond, Err(DriverFault::MarkRefused(place(0, 0)))),
        (How::StaysProgrammed, Err(DriverFault::Mark(place(0, 0)))),
        (How::SharesCells, Err(DriverFault::Mark(place(0, 8)))),
        (How::GoesWithTheSlots, Err(DriverFault::Mark(place(0, 0)))),
    ];
    for (how, answer) in rows {
        let slots = MarkedUnits::new(Ram::new(24576), 0, 2).expect("served");
        assert_eq!(check_marks(&mut Marks { slots, pages: 3, marks: [[[0; 8]; 25]; 3], how }), answer, "{how:?}");
    }
    // The played flash takes no second program at all.
    let mut flash = MarkedUnits::new(Ram::<1, 8, 4096>::new(24576), 0, 2).expect("served");
    assert_eq!(check_marks(&mut flash), Err(DriverFault::MarkRefused(place(0, 0))));
    let slots = MarkedUnits::new(Ram::new(24576), 0, 2).expect("served");
    let mut flash = Marks { slots, pages: 2, marks: [[[0; 8]; 25]; 3], how: How::Nothing };
    assert_eq!(check_marks(&mut flash), Err(DriverFault::PageCount(PageCount { pages: 1 })));
}
