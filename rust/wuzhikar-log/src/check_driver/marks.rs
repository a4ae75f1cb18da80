//! The check of a flash whose pages have marks.

use super::{BLANK, Check, DriverFault, Place, word};
use crate::page_count::PageCount;
use crate::parts::flash_model::{FlashFault, NorFlash, PAGE_SLOTS, SLOT_BYTES};
use crate::parts::steady_flash::MarkedFlash;

/// How often each mark is programmed again: so often a start may, behind power losses.
const AGAIN: usize = 8;

/// Checks over spare pages that a flash does what [`MarkedFlash`] says of each call: [`check_driver`](crate::check_driver) over
/// all its slots, and the marks. Each is programmed, 8 times again with the same bits, and over with zeros.
///
/// **All that the flash holds is lost.** It is blank where the answer is `Ok`, and not formatted. What `check_driver` does not see this
/// does not either; nor does it see that the manual allows fewer programs than the chip takes.
///
/// # Errors
///
/// The first fault that is found. [`MarkRefused`](DriverFault::MarkRefused): the chip is not for
/// [`SteadyFlash`](crate::SteadyFlash).
pub fn check_marks<F: MarkedFlash>(flash: &mut F) -> Result<(), DriverFault> {
    let pages = flash.pages();
    if !(3..=9).contains(&pages) {
        return Err(DriverFault::PageCount(PageCount { pages: pages.saturating_sub(1) }));
    }
    let mut marks = Marks { flash, pages };
    for page in 0..pages {
        marks.erase(page)?;
        marks.fill(page)?;
    }
    Check { flash: &mut Slots(&mut *marks.flash), pages }.all()?;
    marks.each(0, word)?;
    for page in 0..pages {
        marks.program_again(page)?;
    }
    for page in 0..pages {
        marks.erase(page)?;
        marks.each(page + 1, |_| [0; SLOT_BYTES])?;
    }
    marks.slots_are_blank()
}

/// The slots of all pages.
struct Slots<'f, F>(&'f mut F);

impl<F: MarkedFlash> NorFlash for Slots<'_, F> {
    fn pages(&self) -> usize {
        self.0.pages()
    }

    fn read_slot(&self, page: usize, slot: usize) -> [u8; SLOT_BYTES] {
        self.0.read_slot(page, slot)
    }

    fn program_slot(&mut self, page: usize, slot: usize, bytes: [u8; SLOT_BYTES]) -> Result<(), FlashFault> {
        self.0.program_slot(page, slot, bytes)
    }

    fn erase_page(&mut self, page: usize) -> Result<(), FlashFault> {
        self.0.erase_slots(page)
    }
}

/// A flash whose marks are under check.
struct Marks<'f, F> {
    flash: &'f mut F,
    pages: usize,
}

impl<F: MarkedFlash> Marks<'_, F> {
    fn count(&self) -> usize {
        1 + 3 * self.flash.triples()
    }

    /// Programs a mark, which has to read so then.
    fn program(&mut self, place: Place, bytes: [u8; SLOT_BYTES], fault: fn(Place) -> DriverFault) -> Result<(), DriverFault> {
        let done = self.flash.program_mark(place.page, place.slot, bytes);
        if done.is_ok() && self.flash.read_mark(place.page, place.slot) == bytes { Ok(()) } else { Err(fault(place)) }
    }

    fn fill(&mut self, page: usize) -> Result<(), DriverFault> {
        (0..self.count()).try_for_each(|slot| {
            let place = Place { page, slot };
            self.program(place, word(place), DriverFault::Mark)
        })
    }

    fn program_again(&mut self, page: usize) -> Result<(), DriverFault> {
        (0..self.count()).try_for_each(|slot| {
            let place = Place { page, slot };
            for _ in 0..AGAIN {
                self.program(place, word(place), DriverFault::MarkRefused)?;
            }
            self.program(place, [0; SLOT_BYTES], DriverFault::MarkRefused)
        })
    }

    /// Erases the marks of a page, which are blank then.
    fn erase(&mut self, page: usize) -> Result<(), DriverFault> {
        let done = self.flash.erase_marks(page);
        for slot in 0..self.count() {
            if done.is_err() || self.flash.read_mark(page, slot) != BLANK {
                return Err(DriverFault::Mark(Place { page, slot }));
            }
        }
        Ok(())
    }

    /// Whether the marks of the pages from one on read as they should.
    fn each(&self, from: usize, meant: fn(Place) -> [u8; SLOT_BYTES]) -> Result<(), DriverFault> {
        for page in from..self.pages {
            for slot in 0..self.count() {
                let place = Place { page, slot };
                if self.flash.read_mark(page, slot) != meant(place) {
                    return Err(DriverFault::Mark(place));
                }
            }
        }
        Ok(())
    }

    fn slots_are_blank(&self) -> Result<(), DriverFault> {
        for page in 0..self.pages {
            for slot in 0..PAGE_SLOTS {
                if self.flash.read_slot(page, slot) != BLANK {
                    return Err(DriverFault::Shared(Place { page, slot }));
                }
            }
        }
        Ok(())
    }
}
