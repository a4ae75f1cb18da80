//! The flash of the device: the proved one in memory, or one with error correction under the proved adapter.

use crate::cells::{self, Chip};
use alloc::vec::Vec;
use wuzhikar::wuzhikar_log::PairedFlash;
use wuzhikar::{FlashFault, Mask, NorFlash, PAGE_BYTES, PAGE_SLOTS, SLOT_BYTES, SimFlash};

/// A flash of slots.
pub enum Flash {
    /// A slot is a write.
    Plain(SimFlash),
    /// A slot is two writes of units.
    Paired(PairedFlash<Chip>),
}

impl Flash {
    /// A flash with error correction whose slots hold what those of an image of 2 to 8 pages hold: nothing, or a word.
    pub fn paired(image: &[u8]) -> Option<Flash> {
        let pages = SimFlash::from_image(image.to_vec()).ok()?.pages();
        let mut flash = PairedFlash::mount(Chip::blank(pages));
        for (at, slot) in image.chunks_exact(SLOT_BYTES).enumerate() {
            if slot != [0xFF; SLOT_BYTES] {
                flash.program_slot(at / PAGE_SLOTS, at % PAGE_SLOTS, slot.try_into().ok()?).ok()?;
            }
        }
        Some(Flash::Paired(flash))
    }

    /// Tears the next operation by a mask; with error correction the one after so many writes of units. Whether it is so:
    /// a mask has at most 4,096 bytes, and a slot of a plain flash is one write.
    pub fn tear(&mut self, whole: u32, mask: &[u8]) -> bool {
        match self {
            Flash::Plain(flash) if whole == 0 => Mask::try_from(mask).map(|mask| flash.fault_next(mask)).is_ok(),
            Flash::Paired(_) if mask.len() <= PAGE_BYTES => {
                cells::tear(whole, mask);
                true
            }
            _ => false,
        }
    }

    /// What was to be torn is past.
    pub fn disarm(&mut self) {
        match self {
            Flash::Plain(flash) => flash.disarm(),
            Flash::Paired(_) => cells::power_on(),
        }
    }

    /// Where its bytes stand in memory, and how many there are; with error correction nine for each unit, the check last.
    pub fn place(&self) -> (*const u8, usize) {
        match self {
            Flash::Plain(flash) => (flash.image().as_ptr(), flash.image().len()),
            Flash::Paired(_) => cells::place(),
        }
    }

    /// What its slots read as.
    pub fn slots(&self) -> Vec<u8> {
        let mut bytes = Vec::with_capacity(self.pages() * PAGE_BYTES);
        for page in 0..self.pages() {
            for slot in 0..PAGE_SLOTS {
                bytes.extend(self.read_slot(page, slot));
            }
        }
        bytes
    }
}

impl NorFlash for Flash {
    fn pages(&self) -> usize {
        match self {
            Flash::Plain(flash) => flash.pages(),
            Flash::Paired(flash) => flash.pages(),
        }
    }

    fn read_slot(&self, page: usize, slot: usize) -> [u8; SLOT_BYTES] {
        match self {
            Flash::Plain(flash) => flash.read_slot(page, slot),
            Flash::Paired(flash) => flash.read_slot(page, slot),
        }
    }

    fn program_slot(&mut self, page: usize, slot: usize, bytes: [u8; SLOT_BYTES]) -> Result<(), FlashFault> {
        match self {
            Flash::Plain(flash) => flash.program_slot(page, slot, bytes),
            Flash::Paired(flash) => flash.program_slot(page, slot, bytes),
        }
    }

    fn erase_page(&mut self, page: usize) -> Result<(), FlashFault> {
        match self {
            Flash::Plain(flash) => flash.erase_page(page),
            Flash::Paired(flash) => flash.erase_page(page),
        }
    }
}
