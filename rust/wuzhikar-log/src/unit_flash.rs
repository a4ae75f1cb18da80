//! Units of a flash with error correction, on a driver of any geometry. Written by hand: tested, not proved.

#[cfg(test)]
mod tests;

use crate::driver::FlashDriver;
use crate::parts::ecc_flash::{EccFlash, PAGE_UNITS, UNIT_BYTES};
use crate::parts::flash_model::FlashFault;
use crate::units::{GeometryError, Units};

/// A flash with error correction as [`EccFlash`], on a driver whose write units have 8 bytes or more.
///
/// Each unit of 8 bytes stands in a write unit of its own, filled up with FFh, and each page of 1,024 units in whole
/// erase units. [`PairedFlash`](crate::PairedFlash) makes the flash of a log from it.
///
/// The driver's `read` must do more than [`FlashDriver`] asks:
///
/// - It returns an error if the chip reports one that it could not correct. If the chip does so by an interrupt, the driver
///   lets the program go on.
/// - It returns an error if eight bytes read as FFh and the chip reports a corrected bit in their unit: FFh means that each
///   cell is set.
/// - It returns the same until the next write or erase.
///
/// The chip has to correct one bit of these eight bytes at most: error correction over fewer than 8 bytes does not serve.
///
/// ```
/// # fn main() -> Result<(), Box<dyn core::error::Error>> {
/// use wuzhikar_log::{FlashLog, PairedFlash, UnitFlash};
/// # use core::convert::Infallible;
/// # struct Driver(Vec<u8>);
/// # impl wuzhikar_log::FlashDriver for Driver {
/// #     type Error = Infallible;
/// #     const READ_SIZE: usize = 1;
/// #     const WRITE_SIZE: usize = 8;
/// #     const ERASE_SIZE: usize = 2048;
/// #     fn capacity(&self) -> usize { self.0.len() }
/// #     fn read(&mut self, offset: u32, bytes: &mut [u8]) -> Result<(), Infallible> {
/// #         bytes.copy_from_slice(&self.0[offset as usize..][..bytes.len()]);
/// #         Ok(())
/// #     }
/// #     fn write(&mut self, offset: u32, bytes: &[u8]) -> Result<(), Infallible> {
/// #         self.0[offset as usize..][..bytes.len()].copy_from_slice(bytes);
/// #         Ok(())
/// #     }
/// #     fn erase(&mut self, from: u32, to: u32) -> Result<(), Infallible> {
/// #         self.0[from as usize..to as usize].fill(0xFF);
/// #         Ok(())
/// #     }
/// # }
/// # let driver = Driver(vec![0; 16384]);
///
/// // The first time all is erased: two pages from byte 0 on, of 8,192 bytes each.
/// let mut log = FlashLog::mount(PairedFlash::format(UnitFlash::new(driver, 0, 2)?)?)?;
/// log.rewrite([5, 6])?;
///
/// // From then on it is mounted, which writes nothing.
/// let driver = log.into_flash().into_flash().into_driver();
/// let log = FlashLog::mount(PairedFlash::mount(UnitFlash::new(driver, 0, 2)?))?;
/// assert_eq!(log.words().collect::<Vec<u32>>(), [5, 6]);
/// # Ok(())
/// # }
/// ```
#[derive(Debug)]
pub struct UnitFlash<D> {
    units: Units<D, { PAGE_UNITS as u32 }>,
}

impl<D: FlashDriver> UnitFlash<D> {
    /// Takes `pages` pages of a flash, 2 to 8, from byte `start` on. Nothing is read or written.
    ///
    /// # Errors
    ///
    /// `GeometryError` if this flash can't hold them. The units are checked first, then the number of pages, the start and
    /// the capacity. The driver is dropped then.
    pub fn new(driver: D, start: u32, pages: usize) -> Result<UnitFlash<D>, GeometryError> {
        Self::page_bytes()?;
        Ok(UnitFlash { units: Units::new(driver, start, pages)? })
    }

    /// Returns the bytes of flash that each page takes.
    ///
    /// # Errors
    ///
    /// `WriteUnit`, `ReadUnit` or `EraseUnit` if this flash can hold no page.
    pub fn page_bytes() -> Result<u32, GeometryError> {
        if D::WRITE_SIZE < UNIT_BYTES {
            return Err(GeometryError::WriteUnit);
        }
        Units::<D, { PAGE_UNITS as u32 }>::page_bytes()
    }

    /// Returns the driver.
    pub fn into_driver(self) -> D {
        self.units.into_driver()
    }
}

impl<D: FlashDriver> EccFlash for UnitFlash<D> {
    fn pages(&self) -> usize {
        self.units.pages()
    }

    fn read_unit(&self, page: usize, unit: usize) -> Option<[u8; UNIT_BYTES]> {
        self.units.read(page, unit).ok()
    }

    fn program_unit(&mut self, page: usize, unit: usize, bytes: [u8; UNIT_BYTES]) -> Result<(), FlashFault> {
        self.units.write(page, unit, bytes).map_err(|_| FlashFault)
    }

    fn erase_units(&mut self, page: usize) -> Result<(), FlashFault> {
        self.units.erase(page).map_err(|_| FlashFault)
    }
}
