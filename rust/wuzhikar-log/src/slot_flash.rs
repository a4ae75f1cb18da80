//! The flash of a log, on a driver of any geometry. Written by hand: tested, not proved.

#[cfg(test)]
mod tests;

use core::cell::Cell;

use crate::driver::FlashDriver;
use crate::parts::flash_model::{FlashFault, NorFlash, PAGE_SLOTS, SLOT_BYTES};
use crate::units::{GeometryError, Units};

/// What a slot reads as where the driver's read failed: neither free nor a word.
const UNREAD: [u8; SLOT_BYTES] = [255, 255, 255, 127, 255, 255, 255, 255];

/// A flash without error correction as [`NorFlash`], on a driver with whatever units.
///
/// Each slot of 8 bytes stands in write units of its own, filled up with FFh, and each page of 512 slots in whole erase
/// units. So no write touches another slot, and no erase another page. With write units of 1, 2, 4 or 8 bytes, and erase
/// units that divide 4,096, no byte is lost by that.
///
/// A driver's `read` has to give what the cells hold, the same each time. After one that failed the slot reads as neither
/// free nor a word, and nothing is written any more ([`SlotFlash::is_unreadable`]): a word that was not read stays.
///
/// ```
/// # fn main() -> Result<(), Box<dyn core::error::Error>> {
/// use wuzhikar_log::{FlashLog, SlotFlash};
/// # use core::convert::Infallible;
/// # struct Driver(Vec<u8>);
/// # impl wuzhikar_log::FlashDriver for Driver {
/// #     type Error = Infallible;
/// #     const READ_SIZE: usize = 1;
/// #     const WRITE_SIZE: usize = 16;
/// #     const ERASE_SIZE: usize = 8192;
/// #     fn capacity(&self) -> usize { self.0.len() }
/// #     fn read(&mut self, offset: u32, bytes: &mut [u8]) -> Result<(), Infallible> {
/// #         bytes.copy_from_slice(&self.0[offset as usize..][..bytes.len()]);
/// #         Ok(())
/// #     }
/// #     fn write(&mut self, offset: u32, bytes: &[u8]) -> Result<(), Infallible> {
/// #         self.0[offset as usize..][..bytes.len()].copy_from_slice(bytes);
/// #         Ok(())
/// #     }
/// #     fn erase(&mut self, from: u32, to: u32) -> Result<(), Infallible> {
/// #         self.0[from as usize..to as usize].fill(0xFF);
/// #         Ok(())
/// #     }
/// # }
/// # let driver = Driver(vec![0xFF; 32768]);
///
/// // Two pages from byte 0 on, here of a driver with write units of 16 bytes and erase units of 8,192.
/// let mut log = FlashLog::mount(SlotFlash::new(driver, 0, 2)?)?;
/// log.rewrite([5, 6])?;
/// log.push(7)?;
///
/// let driver = log.into_flash().into_driver();
/// let log = FlashLog::mount(SlotFlash::new(driver, 0, 2)?)?;
/// assert_eq!(log.words().collect::<Vec<u32>>(), [5, 6, 7]);
/// # Ok(())
/// # }
/// ```
#[derive(Debug)]
pub struct SlotFlash<D> {
    units: Units<D, { PAGE_SLOTS as u32 }>,
    unreadable: Cell<bool>,
}

impl<D: FlashDriver> SlotFlash<D> {
    /// Takes `pages` pages of a flash, 2 to 8, from byte `start` on. Nothing is read or written.
    ///
    /// # Errors
    ///
    /// `GeometryError` if this flash can't hold them. The units are checked first, then the number of pages, the start and
    /// the capacity. The driver is dropped then.
    pub fn new(driver: D, start: u32, pages: usize) -> Result<SlotFlash<D>, GeometryError> {
        Ok(SlotFlash { units: Units::new(driver, start, pages)?, unreadable: Cell::new(false) })
    }

    /// Returns the bytes of flash that each page takes.
    ///
    /// # Errors
    ///
    /// `WriteUnit`, `ReadUnit` or `EraseUnit` if this flash can hold no page.
    pub fn page_bytes() -> Result<u32, GeometryError> {
        Units::<D, { PAGE_SLOTS as u32 }>::page_bytes()
    }

    /// Returns whether a read of the driver failed since [`SlotFlash::new`]. What was read then may lack words, and
    /// nothing is written any more.
    pub fn is_unreadable(&self) -> bool {
        self.unreadable.get()
    }

    /// Returns the driver.
    pub fn into_driver(self) -> D {
        self.units.into_driver()
    }
}

impl<D: FlashDriver> NorFlash for SlotFlash<D> {
    fn pages(&self) -> usize {
        self.units.pages()
    }

    fn read_slot(&self, page: usize, slot: usize) -> [u8; SLOT_BYTES] {
        self.units.read(page, slot).unwrap_or_else(|_| {
            self.unreadable.set(true);
            UNREAD
        })
    }

    fn program_slot(&mut self, page: usize, slot: usize, bytes: [u8; SLOT_BYTES]) -> Result<(), FlashFault> {
        if self.is_unreadable() {
            return Err(FlashFault);
        }
        self.units.write(page, slot, bytes).map_err(|_| FlashFault)
    }

    fn erase_page(&mut self, page: usize) -> Result<(), FlashFault> {
        if self.is_unreadable() {
            return Err(FlashFault);
        }
        self.units.erase(page).map_err(|_| FlashFault)
    }
}
