// Exported from crates/flash_model/src/sim.rt by bin/export-rust. Edit that file instead.
//! A flash in memory, for runs without hardware.

use crate::parts::flash_model::{FlashFault, Mask, NorFlash, PAGE_BYTES, SLOT_BYTES, masks};
use crate::rattle::alloc::Global;

/// Why there is no flash.
#[derive(Clone, Copy, Debug, PartialEq, Eq)]
pub enum FlashError {
    /// A flash has 2 to 8 pages.
    PageCount,
    /// There was no memory for the pages.
    Memory,
    /// The bytes are not those of 2 to 8 whole pages.
    ImageSize,
}

/// A flash in memory. No operation of it fails, but that which comes after `fault_next`. Two are equal
/// where their bytes, what is armed and both counts are.
///
/// ```rust
/// use wuzhikar_log::{Mask, NorFlash, SimFlash};
///
/// let mut flash = SimFlash::blank(2).unwrap();
/// // The next operation fails, and of its bits those of the mask take effect.
/// flash.fault_next(Mask::from_iter([0x0f]));
/// assert!(flash.program_slot(0, 0, [0; 8]).is_err());
/// assert_eq!(flash.read_slot(0, 0), [0xf0; 8]);
/// ```
#[derive(Clone, Debug)]
pub struct SimFlash {
    bytes: crate::rattle::Vec<u8>,
    armed: Option<Mask>,
    operations: u64,
    faults: u64,
}

impl SimFlash {
    /// Makes a blank flash of `pages` pages, every byte FFh, with nothing armed and no operation
    /// counted.
    ///
    /// `PageCount` where `pages` is not 2 to 8, asked first; `Memory` where there was no memory for
    /// the 4,096 bytes of each page.
    pub(crate) fn new(alloc: Global, pages: usize) -> Result<SimFlash, FlashError> {
        if pages < 2 || pages > 8 {
            return Err(FlashError::PageCount);
        }
        match crate::rattle::vec::of(alloc, 255u8, PAGE_BYTES * pages) {
            Ok(bytes) => Ok(SimFlash {
                bytes,
                armed: None,
                operations: 0,
                faults: 0,
            }),
            Err(_) => Err(FlashError::Memory),
        }
    }

    /// Makes a flash that holds these bytes, with nothing armed and no operation counted.
    ///
    /// `ImageSize` where they are not 2 to 8 whole pages of 4,096 bytes; the bytes are then dropped.
    pub fn from_image(bytes: crate::rattle::Vec<u8>) -> Result<SimFlash, FlashError> {
        let pages = bytes.len() / PAGE_BYTES;
        if bytes.len() % PAGE_BYTES != 0 || pages < 2 || pages > 8 {
            return Err(FlashError::ImageSize);
        }
        Ok(SimFlash {
            bytes,
            armed: None,
            operations: 0,
            faults: 0,
        })
    }

    /// Returns the bytes of the pages, one page after the other.
    pub fn image(&self) -> &[u8] {
        self.bytes.as_slice()
    }

    /// Tears the next program or erase by the mask: its outcome is exactly the mask's, and it answers
    /// `FlashFault`. Operations after that one are whole again. A flash that is armed takes this
    /// mask in place of its own.
    pub fn fault_next(&mut self, mask: Mask) {
        self.armed = Some(mask);
    }

    /// Takes back what `fault_next` armed, where no operation has come since.
    pub fn disarm(&mut self) {
        let _mask = self.armed.take();
    }

    /// After a torn operation: it counts as a fault, and its mask is used up.
    fn end_fault(&mut self) {
        self.faults = self.faults.wrapping_add(1);
        self.armed = None;
    }
}

impl PartialEq for SimFlash {
    fn eq(&self, other: &SimFlash) -> bool {
        self.bytes == other.bytes
            && self.armed == other.armed
            && self.operations == other.operations
            && self.faults == other.faults
    }
}

impl Eq for SimFlash {
}

impl NorFlash for SimFlash {
    fn pages(&self) -> usize {
        let bytes = self.bytes.as_slice();
        bytes.len() / PAGE_BYTES
    }

    fn read_slot(&self, page: usize, slot: usize) -> [u8; SLOT_BYTES] {
        let bytes = self.bytes.as_slice();
        let at = PAGE_BYTES * page + SLOT_BYTES * slot;
        [
            bytes[at],
            bytes[at + 1],
            bytes[at + 2],
            bytes[at + 3],
            bytes[at + 4],
            bytes[at + 5],
            bytes[at + 6],
            bytes[at + 7],
        ]
    }

    fn program_slot(
        &mut self,
        page: usize,
        slot: usize,
        bytes: [u8; SLOT_BYTES],
    ) -> Result<(), FlashFault> {
        self.operations = self.operations.wrapping_add(1);
        match &self.armed {
            None => {
                program(&mut self.bytes, page, slot, bytes);
                Ok(())
            }
            Some(mask) => {
                masks::program(&mut self.bytes, page, slot, bytes, mask.as_slice());
                self.end_fault();
                Err(FlashFault)
            }
        }
    }

    fn erase_page(&mut self, page: usize) -> Result<(), FlashFault> {
        self.operations = self.operations.wrapping_add(1);
        match &self.armed {
            None => {
                erase(&mut self.bytes, page);
                Ok(())
            }
            Some(mask) => {
                masks::erase(&mut self.bytes, page, mask.as_slice());
                self.end_fault();
                Err(FlashFault)
            }
        }
    }
}

/// Clears the bits of a slot that are clear in `with`.
fn program(image: &mut [u8], page: usize, slot: usize, with: [u8; SLOT_BYTES]) {
    clear(image, PAGE_BYTES * page + SLOT_BYTES * slot, with);
}

/// Sets every bit of a page.
fn erase(image: &mut [u8], page: usize) {
    set(image, PAGE_BYTES * page);
}

/// Clears the bits of eight bytes that are clear in `with`.
fn clear(image: &mut [u8], at: usize, with: [u8; SLOT_BYTES]) {
    for k in 0..SLOT_BYTES {
        image[at + k] &= with[k];
    }
}

/// Sets every bit of the bytes of a page.
fn set(image: &mut [u8], at: usize) {
    for k in 0..PAGE_BYTES {
        image[at + k] = u8::MAX;
    }
}
