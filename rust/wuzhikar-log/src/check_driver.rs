//! A check of a flash and its driver, for a maker to run once on the chip. Written by hand: tested, not proved.

mod marks;
#[cfg(test)]
mod tests;

pub use marks::check_marks;

use crate::page_count::PageCount;
use crate::parts::flash_model::{NorFlash, PAGE_SLOTS, SLOT_BYTES};

const BLANK: [u8; SLOT_BYTES] = [0xFF; SLOT_BYTES];

/// Words beside their complements.
const MIRRORED: [[u8; SLOT_BYTES]; 2] =
    [[0x23, 0x23, 0x23, 0x23, 0xDC, 0xDC, 0xDC, 0xDC], [0xDC, 0xDC, 0x23, 0x23, 0x23, 0x23, 0xDC, 0xDC]];

/// The place of a slot.
#[derive(Clone, Copy, Debug, PartialEq, Eq)]
pub struct Place {
    /// Its page.
    pub page: usize,
    /// Its number on the page, 0 to 511.
    pub slot: usize,
}

/// What a flash or its driver does wrong.
///
/// ```
/// # use wuzhikar_log::{FlashFault, NorFlash};
/// use wuzhikar_log::{DriverFault, Place, check_driver};
/// # struct Unerased;
/// # impl NorFlash for Unerased {
/// #     fn pages(&self) -> usize { 2 }
/// #     fn read_slot(&self, _page: usize, _slot: usize) -> [u8; 8] { [0; 8] }
/// #     fn program_slot(&mut self, _page: usize, _slot: usize, _bytes: [u8; 8]) -> Result<(), FlashFault> { Ok(()) }
/// #     fn erase_page(&mut self, _page: usize) -> Result<(), FlashFault> { Ok(()) }
/// # }
///
/// // A flash whose erases do nothing.
/// let fault = check_driver(&mut Unerased).unwrap_err();
/// assert_eq!(fault, DriverFault::NotErased(Place { page: 0, slot: 0 }));
/// assert_eq!(fault.to_string(), "page 0, slot 0: not blank after the erase of its page");
/// ```
#[derive(Clone, Copy, Debug, PartialEq, Eq)]
pub enum DriverFault {
    /// There are not 2 to 8 pages. Nothing was read or written.
    PageCount(PageCount),
    /// The erase of a page reported a fault.
    EraseFailed {
        /// The page.
        page: usize,
    },
    /// A slot is not blank after the erase of its page: nothing is erased, or less than a page.
    NotErased(Place),
    /// The erase of another page changed a slot: more than a page is erased, or another one.
    OtherErased(Place),
    /// The program of a blank slot reported a fault.
    ProgramFailed(Place),
    /// A slot reads as the bytes that it was programmed with, in another order. Or, over a flash that looks after what it
    /// programs, as [`PairedFlash`](crate::PairedFlash) does: it takes only words that read the same in another order.
    ByteOrder(Place),
    /// A slot does not read as the bytes that it was programmed with.
    NotProgrammed(Place),
    /// The program of another slot changed a slot: both share cells, or a write unit.
    Shared(Place),
    /// A second program set bits that were clear.
    BitsSet(Place),
    /// A second program cleared other bits than those that were to be cleared; or not all of them, and reported no fault.
    SecondProgram(Place),
    /// Two reads of a slot in a row differ.
    Unsteady(Place),
    /// A mark (in place of a slot) was erased or programmed, and reads otherwise or reported a fault; or something else changed it.
    Mark(Place),
    /// A mark that was programmed again, with the same bits or with zeros, reported a fault or reads otherwise: **the chip is not for
    /// [`SteadyFlash`](crate::SteadyFlash)**.
    MarkRefused(Place),
}

/// Checks over spare pages that a flash does what [`NorFlash`] says of each call.
///
/// It tries the number of pages, erases, programs, second programs, the order of bytes, and that no operation touches another
/// slot or page.
///
/// **All that the pages hold is lost.** They are blank where the answer is `Ok`. Each page is erased three times, page 0 a
/// fourth time, and each slot is programmed twice. A second program of a slot may report a fault, as many chips do, if it
/// then leaves the slot as the trait allows.
///
/// It does not see what a power loss leaves, what changes by itself, or what error correction makes of a torn write. Nor does
/// it see reads that come from a buffer and not from the cells, or what an operation does **outside of the pages**: fill the
/// flash around them with a pattern, and compare it after the check.
///
/// # Errors
///
/// The first fault that is found.
///
/// ```
/// # fn main() -> Result<(), Box<dyn core::error::Error>> {
/// use wuzhikar_log::{SlotFlash, check_driver};
/// # use core::convert::Infallible;
/// # struct Driver(Vec<u8>);
/// # impl wuzhikar_log::FlashDriver for Driver {
/// #     type Error = Infallible;
/// #     const READ_SIZE: usize = 1;
/// #     const WRITE_SIZE: usize = 4;
/// #     const ERASE_SIZE: usize = 4096;
/// #     fn capacity(&self) -> usize { self.0.len() }
/// #     fn read(&mut self, offset: u32, bytes: &mut [u8]) -> Result<(), Infallible> {
/// #         bytes.copy_from_slice(&self.0[offset as usize..][..bytes.len()]);
/// #         Ok(())
/// #     }
/// #     fn write(&mut self, offset: u32, bytes: &[u8]) -> Result<(), Infallible> {
/// #         self.0[offset as usize..][..bytes.len()].iter_mut().zip(bytes).for_each(|(cell, byte)| *cell &= byte);
/// #         Ok(())
/// #     }
/// #     fn erase(&mut self, from: u32, to: u32) -> Result<(), Infallible> {
/// #         self.0[from as usize..to as usize].fill(0xFF);
/// #         Ok(())
/// #     }
/// # }
/// # let driver = Driver(vec![0; 32768]);
/// # const SPARE: u32 = 8192;
///
/// // Two spare pages, from byte SPARE on. A geometry that can't serve is refused here.
/// let mut flash = SlotFlash::new(driver, SPARE, 2)?;
/// check_driver(&mut flash)?;
/// # Ok(())
/// # }
/// ```
pub fn check_driver<F: NorFlash>(flash: &mut F) -> Result<(), DriverFault> {
    PageCount::check(flash).map_err(DriverFault::PageCount)?;
    let pages = flash.pages();
    Check { flash, pages }.all()
}

/// A flash under check.
struct Check<'f, F> {
    flash: &'f mut F,
    pages: usize,
}

impl<F: NorFlash> Check<'_, F> {
    fn all(&mut self) -> Result<(), DriverFault> {
        self.erase_all()?;
        for page in 0..self.pages {
            self.fill(page)?;
        }
        for page in 0..self.pages {
            self.holds_words(page, DriverFault::Shared)?;
        }
        for page in 0..self.pages {
            self.erase(page)?;
            self.others_hold_words(page, DriverFault::OtherErased)?;
            self.fill(page)?;
        }
        self.second_programs()?;
        self.erase_all()
    }

    fn read(&self, place: Place) -> Result<[u8; SLOT_BYTES], DriverFault> {
        let bytes = self.flash.read_slot(place.page, place.slot);
        if bytes != self.flash.read_slot(place.page, place.slot) {
            return Err(DriverFault::Unsteady(place));
        }
        Ok(bytes)
    }

    fn erase_all(&mut self) -> Result<(), DriverFault> {
        (0..self.pages).try_for_each(|page| self.erase(page))
    }

    fn erase(&mut self, page: usize) -> Result<(), DriverFault> {
        self.flash.erase_page(page).map_err(|_| DriverFault::EraseFailed { page })?;
        self.each_slot(page, 0, |_| BLANK, DriverFault::NotErased)
    }

    /// Programs all slots of a blank page.
    fn fill(&mut self, page: usize) -> Result<(), DriverFault> {
        (0..PAGE_SLOTS).try_for_each(|slot| {
            let place = Place { page, slot };
            self.program(place, word(place))
        })
    }

    /// Programs a slot that has to be blank, with the bytes of a word.
    fn program(&mut self, place: Place, bytes: [u8; SLOT_BYTES]) -> Result<(), DriverFault> {
        if self.read(place)? != BLANK {
            return Err(DriverFault::Shared(place));
        }
        if self.flash.program_slot(place.page, place.slot, bytes).is_err() {
            return Err(if self.takes_mirrored_words_alone(place) {
                DriverFault::ByteOrder(place)
            } else {
                DriverFault::ProgramFailed(place)
            });
        }
        let (mut now, mut meant) = (self.read(place)?, bytes);
        if now == meant {
            return Ok(());
        }
        now.sort_unstable();
        meant.sort_unstable();
        Err(if now == meant { DriverFault::ByteOrder(place) } else { DriverFault::NotProgrammed(place) })
    }

    /// Whether the slots after this one take no word but those whose bytes, and those of their checks, read the same in another
    /// order: with the bytes of each four turned round, or those of all eight.
    fn takes_mirrored_words_alone(&mut self, place: Place) -> bool {
        let behind = |count| Place { slot: place.slot + count, ..place };
        if behind(MIRRORED.len() + 1).slot > PAGE_SLOTS - 1 || self.takes(behind(1), word(behind(1))) {
            return false;
        }
        MIRRORED.into_iter().zip(2..).any(|(bytes, count)| self.takes(behind(count), bytes))
    }

    fn takes(&mut self, place: Place, bytes: [u8; SLOT_BYTES]) -> bool {
        self.flash.program_slot(place.page, place.slot, bytes).is_ok() && self.flash.read_slot(place.page, place.slot) == bytes
    }

    /// Programs a slot whatever it holds.
    fn program_over(&mut self, place: Place, bytes: [u8; SLOT_BYTES]) -> Result<(), DriverFault> {
        let held = u64::from_le_bytes(self.read(place)?);
        let done = self.flash.program_slot(place.page, place.slot, bytes);
        let now = u64::from_le_bytes(self.read(place)?);
        let whole = held & u64::from_le_bytes(bytes);
        if now & !held != 0 {
            return Err(DriverFault::BitsSet(place));
        }
        if whole & !now != 0 || (done.is_ok() && now != whole) {
            return Err(DriverFault::SecondProgram(place));
        }
        Ok(())
    }

    /// Programs slots of page 0 twice. No cell is programmed more than twice between two erases, as some chips ask.
    fn second_programs(&mut self) -> Result<(), DriverFault> {
        self.erase(0)?;
        let [further, halves, nothing] = [0, 1, 2].map(|slot| Place { page: 0, slot });
        self.program(further, word(further))?;
        self.program_over(further, [0; SLOT_BYTES])?;
        let [a, b, c, d, e, f, g, h] = word(halves);
        self.program_over(halves, [a, b, c, d, 0xFF, 0xFF, 0xFF, 0xFF])?;
        self.program_over(halves, [0xFF, 0xFF, 0xFF, 0xFF, e, f, g, h])?;
        self.program_over(nothing, BLANK)?;
        self.program_over(nothing, word(nothing))?;
        self.each_slot(0, 3, |_| BLANK, DriverFault::Shared)?;
        self.others_hold_words(0, DriverFault::Shared)
    }

    fn holds_words(&self, page: usize, fault: fn(Place) -> DriverFault) -> Result<(), DriverFault> {
        self.each_slot(page, 0, word, fault)
    }

    fn others_hold_words(&self, page: usize, fault: fn(Place) -> DriverFault) -> Result<(), DriverFault> {
        (0..self.pages).filter(|&other| other != page).try_for_each(|other| self.holds_words(other, fault))
    }

    /// Whether the slots of a page, from one on, read as they should.
    fn each_slot(
        &self,
        page: usize,
        from: usize,
        meant: fn(Place) -> [u8; SLOT_BYTES],
        fault: fn(Place) -> DriverFault,
    ) -> Result<(), DriverFault> {
        (from..PAGE_SLOTS).try_for_each(|slot| {
            let place = Place { page, slot };
            if self.read(place)? == meant(place) { Ok(()) } else { Err(fault(place)) }
        })
    }
}

/// The bytes of a word that no other slot has, as a log stores words: beside its complement, with bit 31 clear.
fn word(place: Place) -> [u8; SLOT_BYTES] {
    let number = (PAGE_SLOTS * place.page + place.slot) as u64;
    let word = 0x2300_0045 | (number << 8);
    (word | (!word << 32)).to_le_bytes()
}

impl core::fmt::Display for DriverFault {
    fn fmt(&self, f: &mut core::fmt::Formatter<'_>) -> core::fmt::Result {
        let (place, what) = match self {
            DriverFault::PageCount(count) => return count.fmt(f),
            DriverFault::EraseFailed { page } => return write!(f, "page {page}: its erase reported a fault"),
            DriverFault::NotErased(place) => (place, "not blank after the erase of its page"),
            DriverFault::OtherErased(place) => (place, "changed by the erase of another page"),
            DriverFault::ProgramFailed(place) => (place, "its program reported a fault"),
            DriverFault::ByteOrder(place) => (place, "reads as its bytes in another order"),
            DriverFault::NotProgrammed(place) => (place, "does not read as the bytes that it was programmed with"),
            DriverFault::Shared(place) => (place, "changed by the program of another slot"),
            DriverFault::BitsSet(place) => (place, "a second program set bits that were clear"),
            DriverFault::SecondProgram(place) => (place, "a second program left other bits than it should"),
            DriverFault::Unsteady(place) => (place, "two reads in a row differ"),
            DriverFault::Mark(place) => return write!(f, "page {}, mark {}: wrong, or changed", place.page, place.slot),
            DriverFault::MarkRefused(Place { page, slot }) => {
                return write!(f, "page {page}, mark {slot}: the chip refuses to program it again");
            }
        };
        write!(f, "page {}, slot {}: {what}", place.page, place.slot)
    }
}

impl core::error::Error for DriverFault {}
