//! Pages of units of eight bytes, each in write units of its own, on any driver. Written by hand.

use core::cell::RefCell;

use crate::driver::FlashDriver;

/// Bytes of a unit that hold something.
const UNIT_BYTES: usize = 8;

/// The longest write unit that is served.
const LONGEST_WRITE: usize = 512;

/// Why a flash can't hold the pages of a log.
///
/// ```
/// use wuzhikar_log::{GeometryError, SlotFlash};
/// # use core::convert::Infallible;
/// # struct Driver;
/// # impl wuzhikar_log::FlashDriver for Driver {
/// #     type Error = Infallible;
/// #     const READ_SIZE: usize = 1;
/// #     const WRITE_SIZE: usize = 4;
/// #     const ERASE_SIZE: usize = 4096;
/// #     fn capacity(&self) -> usize { 16384 }
/// #     fn read(&mut self, _offset: u32, _bytes: &mut [u8]) -> Result<(), Infallible> { Ok(()) }
/// #     fn write(&mut self, _offset: u32, _bytes: &[u8]) -> Result<(), Infallible> { Ok(()) }
/// #     fn erase(&mut self, _from: u32, _to: u32) -> Result<(), Infallible> { Ok(()) }
/// # }
///
/// // A driver of 16,384 bytes in erase units of 4,096.
/// assert_eq!(SlotFlash::<Driver>::page_bytes(), Ok(4096));
/// assert_eq!(SlotFlash::new(Driver, 100, 2).err(), Some(GeometryError::Start));
/// assert_eq!(SlotFlash::new(Driver, 12288, 2).err(), Some(GeometryError::Capacity { end: 20480 }));
/// ```
#[derive(Clone, Copy, Debug, PartialEq, Eq)]
pub enum GeometryError {
    /// There are 2 to 8 pages.
    Pages,
    /// The unit of writes has 1 to 512 bytes, and in a [`UnitFlash`](crate::UnitFlash) 8 or more.
    WriteUnit,
    /// The unit of reads divides the bytes that a slot (or a unit) takes: the least multiple of the write unit that has 8 or more.
    ReadUnit,
    /// The erase unit is a multiple of the write unit, below 4 GB.
    EraseUnit,
    /// Page 0 starts where an erase unit does.
    Start,
    /// The pages end beyond the flash, or beyond the offsets of 32 bits.
    Capacity {
        /// Where they end.
        end: u64,
    },
}

impl core::fmt::Display for GeometryError {
    fn fmt(&self, f: &mut core::fmt::Formatter<'_>) -> core::fmt::Result {
        match self {
            GeometryError::Pages => f.write_str("there are 2 to 8 pages"),
            GeometryError::WriteUnit => {
                f.write_str("the unit of writes has 1 to 512 bytes, and 8 or more where each has error correction")
            }
            GeometryError::ReadUnit => f.write_str("the unit of reads has to divide the bytes that a slot or a unit takes"),
            GeometryError::EraseUnit => f.write_str("the unit of erases has to be a multiple of that of writes"),
            GeometryError::Start => f.write_str("page 0 has to start where an erase unit does"),
            GeometryError::Capacity { end } => write!(f, "the pages would end at byte {end}, beyond the flash"),
        }
    }
}

impl core::error::Error for GeometryError {}

/// How many bytes a unit and a page take.
#[derive(Clone, Copy, Debug, PartialEq, Eq)]
struct Layout {
    unit: u32,
    page: u32,
}

impl Layout {
    /// Puts each unit into whole write units, and each page of `units` units into whole erase units.
    const fn for_units(read: usize, write: usize, erase: usize, units: u32) -> Result<Layout, GeometryError> {
        if write == 0 || write > LONGEST_WRITE {
            return Err(GeometryError::WriteUnit);
        }
        let unit = write * UNIT_BYTES.div_ceil(write);
        if read == 0 || unit % read != 0 {
            return Err(GeometryError::ReadUnit);
        }
        if erase == 0 || erase % write != 0 {
            return Err(GeometryError::EraseUnit);
        }
        let page = (units as u64 * unit as u64).div_ceil(erase as u64).saturating_mul(erase as u64);
        if page > u32::MAX as u64 {
            return Err(GeometryError::EraseUnit);
        }
        Ok(Layout { unit: unit as u32, page: page as u32 })
    }
}

/// Pages of `UNITS` units each.
#[derive(Debug)]
pub(crate) struct Units<D, const UNITS: u32> {
    // A read asks for the driver alone, where a log lends its flash to read.
    driver: RefCell<D>,
    start: u32,
    pages: usize,
}

impl<D: FlashDriver, const UNITS: u32> Units<D, UNITS> {
    const CHECKED: Result<Layout, GeometryError> = Layout::for_units(D::READ_SIZE, D::WRITE_SIZE, D::ERASE_SIZE, UNITS);

    /// The layout, where `new` has let it pass.
    const LAYOUT: Layout = match Self::CHECKED {
        Ok(layout) => layout,
        Err(_) => Layout { unit: UNIT_BYTES as u32, page: 0 },
    };

    /// The bytes that one read takes.
    const READ_BYTES: usize = match UNIT_BYTES.checked_rem(D::READ_SIZE) {
        Some(0) => UNIT_BYTES,
        _ => Self::LAYOUT.unit as usize,
    };

    pub(crate) fn new(driver: D, start: u32, pages: usize) -> Result<Units<D, UNITS>, GeometryError> {
        Self::with_more(driver, start, pages, 0, 0)
    }

    /// Pages for a log, so many more, and so many bytes after them.
    pub(crate) fn with_more(driver: D, start: u32, pages: usize, more: usize, behind: u64) -> Result<Self, GeometryError> {
        let layout = Self::CHECKED?;
        if !(2..=8).contains(&pages) {
            return Err(GeometryError::Pages);
        }
        if u64::from(start) % D::ERASE_SIZE as u64 != 0 {
            return Err(GeometryError::Start);
        }
        let pages = pages + more;
        let end = u64::from(start) + u64::from(layout.page) * pages as u64 + behind;
        if end > driver.capacity() as u64 || end > u64::from(u32::MAX) {
            return Err(GeometryError::Capacity { end });
        }
        Ok(Units { driver: RefCell::new(driver), start, pages })
    }

    /// How many bytes of flash a page takes.
    pub(crate) fn page_bytes() -> Result<u32, GeometryError> {
        Self::CHECKED.map(|layout| layout.page)
    }

    pub(crate) fn pages(&self) -> usize {
        self.pages
    }

    pub(crate) fn driver(&mut self) -> &mut D {
        self.driver.get_mut()
    }

    pub(crate) fn into_driver(self) -> D {
        self.driver.into_inner()
    }

    /// The bytes of a unit, in whole write units.
    pub(crate) const UNIT: u32 = Self::LAYOUT.unit;

    /// Where a page starts; `page` may be `pages`.
    pub(crate) fn page_at(&self, page: usize) -> u32 {
        self.start + Self::LAYOUT.page * page as u32
    }

    fn unit_at(&self, page: usize, unit: usize) -> u32 {
        self.page_at(page) + Self::LAYOUT.unit * unit as u32
    }

    pub(crate) fn read(&self, page: usize, unit: usize) -> Result<[u8; UNIT_BYTES], D::Error> {
        self.read_at(self.unit_at(page, unit))
    }

    pub(crate) fn read_at(&self, at: u32) -> Result<[u8; UNIT_BYTES], D::Error> {
        let mut driver = self.driver.borrow_mut();
        let mut bytes = [0; UNIT_BYTES];
        if Self::READ_BYTES == UNIT_BYTES {
            driver.read(at, &mut bytes)?;
        } else {
            let mut longer = [0; LONGEST_WRITE];
            driver.read(at, &mut longer[..Self::READ_BYTES])?;
            bytes.copy_from_slice(&longer[..UNIT_BYTES]);
        }
        Ok(bytes)
    }

    /// Programs a unit, and fills up what is left of its write unit with FFh.
    pub(crate) fn write(&mut self, page: usize, unit: usize, bytes: [u8; UNIT_BYTES]) -> Result<(), D::Error> {
        let at = self.unit_at(page, unit);
        self.write_at(at, bytes)
    }

    pub(crate) fn write_at(&mut self, at: u32, bytes: [u8; UNIT_BYTES]) -> Result<(), D::Error> {
        let length = Self::LAYOUT.unit as usize;
        let driver = self.driver.get_mut();
        // The sizes are known when this is built, so that one of the three is left.
        if length == UNIT_BYTES {
            driver.write(at, &bytes)
        } else if length <= 32 {
            driver.write(at, &filled::<32>(bytes)[..length])
        } else {
            driver.write(at, &filled::<LONGEST_WRITE>(bytes)[..length])
        }
    }

    pub(crate) fn erase(&mut self, page: usize) -> Result<(), D::Error> {
        let (from, to) = (self.page_at(page), self.page_at(page + 1));
        self.driver.get_mut().erase(from, to)
    }
}

/// Eight bytes, and FFh after them.
fn filled<const LENGTH: usize>(bytes: [u8; UNIT_BYTES]) -> [u8; LENGTH] {
    let mut longer = [0xFF; LENGTH];
    longer[..UNIT_BYTES].copy_from_slice(&bytes);
    longer
}
