//! Pages with marks, on a driver of any geometry. Written by hand: tested, not proved.

#[cfg(test)]
mod tests;

use core::cell::Cell;

use crate::driver::FlashDriver;
use crate::parts::flash_model::{FlashFault, PAGE_SLOTS, SLOT_BYTES};
use crate::parts::steady_flash::MarkedFlash;
use crate::units::{GeometryError, Units};

/// What a slot reads as where the driver's read failed: neither free nor a word, nor a mark.
const UNREAD: [u8; SLOT_BYTES] = [255, 255, 255, 127, 255, 255, 255, 255];

/// The marks of eight triples, and the one before them.
const LEAST_MARKS: u32 = 25;

/// More triples than that are not used.
const MOST_TRIPLES: u32 = 24;

/// A flash without error correction as [`MarkedFlash`], on a driver with whatever units.
///
/// For a log of `pages` pages it takes one more. Their slots stand as those of a [`SlotFlash`](crate::SlotFlash) do, so the pages of
/// one at the same `start` are the first of these. Behind all slots stand the marks: in each page as many whole erase units as hold 25
/// marks, of which 24 triples are used at most.
///
/// Two pages of a driver with erase units of 4,096 bytes take 24,576 bytes.
#[derive(Debug)]
pub struct MarkedUnits<D> {
    slots: Units<D, { PAGE_SLOTS as u32 }>,
    unreadable: Cell<bool>,
}

impl<D: FlashDriver> MarkedUnits<D> {
    /// Takes the flash for a log of `pages` pages, 2 to 8, from byte `start` on. Nothing is read or written.
    ///
    /// # Errors
    ///
    /// `GeometryError` if this flash can't hold them. The units are checked first, then the number of pages, the start and the
    /// capacity. The driver is dropped then.
    pub fn new(driver: D, start: u32, pages: usize) -> Result<MarkedUnits<D>, GeometryError> {
        let marks = u64::from(Self::marks_bytes()?);
        let slots = Units::with_more(driver, start, pages, 1, marks.saturating_mul(pages as u64 + 1))?;
        Ok(MarkedUnits { slots, unreadable: Cell::new(false) })
    }

    /// Returns the bytes of flash that a log of `pages` pages takes.
    ///
    /// # Errors
    ///
    /// `WriteUnit`, `ReadUnit` or `EraseUnit` if this flash can hold no page, `Pages` if `pages` is not 2 to 8.
    pub fn bytes(pages: usize) -> Result<u64, GeometryError> {
        let slots = Units::<D, { PAGE_SLOTS as u32 }>::page_bytes()?;
        if !(2..=8).contains(&pages) {
            return Err(GeometryError::Pages);
        }
        Ok((u64::from(slots) + u64::from(Self::marks_bytes()?)) * (pages as u64 + 1))
    }

    /// Returns whether a read of the driver failed since [`MarkedUnits::new`]. Nothing is written any more.
    pub fn is_unreadable(&self) -> bool {
        self.unreadable.get()
    }

    /// Returns the driver.
    pub fn into_driver(self) -> D {
        self.slots.into_driver()
    }

    /// The bytes of the marks of a page.
    fn marks_bytes() -> Result<u32, GeometryError> {
        Units::<D, LEAST_MARKS>::page_bytes()
    }

    /// Where the marks of a page start; `page` may be that behind the last one.
    fn marks_at(&self, page: usize) -> u32 {
        self.slots.page_at(self.slots.pages()) + Self::marks_bytes().unwrap_or(0) * page as u32
    }

    fn mark_at(&self, page: usize, mark: usize) -> u32 {
        self.marks_at(page) + Units::<D, LEAST_MARKS>::UNIT * mark as u32
    }

    fn read_or_not(&self, read: Result<[u8; SLOT_BYTES], D::Error>) -> [u8; SLOT_BYTES] {
        read.unwrap_or_else(|_| {
            self.unreadable.set(true);
            UNREAD
        })
    }

    /// Refuses what would be written where something was not read.
    fn check_reads(&self) -> Result<(), FlashFault> {
        if self.is_unreadable() { Err(FlashFault) } else { Ok(()) }
    }
}

impl<D: FlashDriver> MarkedFlash for MarkedUnits<D> {
    fn pages(&self) -> usize {
        self.slots.pages()
    }

    fn triples(&self) -> usize {
        let marks = Self::marks_bytes().unwrap_or(0) / Units::<D, LEAST_MARKS>::UNIT;
        (marks.saturating_sub(1) / 3).min(MOST_TRIPLES) as usize
    }

    fn read_slot(&self, page: usize, slot: usize) -> [u8; SLOT_BYTES] {
        self.read_or_not(self.slots.read(page, slot))
    }

    fn read_mark(&self, page: usize, mark: usize) -> [u8; SLOT_BYTES] {
        self.read_or_not(self.slots.read_at(self.mark_at(page, mark)))
    }

    fn program_slot(&mut self, page: usize, slot: usize, bytes: [u8; SLOT_BYTES]) -> Result<(), FlashFault> {
        self.check_reads()?;
        self.slots.write(page, slot, bytes).map_err(|_| FlashFault)
    }

    fn program_mark(&mut self, page: usize, mark: usize, bytes: [u8; SLOT_BYTES]) -> Result<(), FlashFault> {
        self.check_reads()?;
        let at = self.mark_at(page, mark);
        self.slots.write_at(at, bytes).map_err(|_| FlashFault)
    }

    fn erase_slots(&mut self, page: usize) -> Result<(), FlashFault> {
        self.check_reads()?;
        self.slots.erase(page).map_err(|_| FlashFault)
    }

    fn erase_marks(&mut self, page: usize) -> Result<(), FlashFault> {
        self.check_reads()?;
        let (from, to) = (self.marks_at(page), self.marks_at(page + 1));
        self.slots.driver().erase(from, to).map_err(|_| FlashFault)
    }

    fn is_unreadable(&self) -> bool {
        self.unreadable.get()
    }

    fn give_up(&mut self) {
        self.slots.driver().give_up();
    }
}
