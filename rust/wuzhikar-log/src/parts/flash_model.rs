// Exported from crates/flash_model/src/lib.rt by bin/export-rust. Edit that file instead.
//! NOR flash: pages of 512 slots of eight bytes. A program clears bits of one slot, an erase sets
//! every bit of one page.
//!
//! `NorFlash` is the flash that the firmware writes to, with what each operation does to the bytes;
//! `SimFlash` is one in memory.
//!
//! A `SimFlash` keeps the bytes, both counts, and the mask that its next operation is torn by. The
//! guarantee is what a torn operation can leave: of its own bits some have taken effect and others
//! have not, and nothing else has changed. A driver of a flash implements `NorFlash`;
//! `page_turnover` and what stands on it write through it, and the crate `kbsim` runs on a `SimFlash`.

#[cfg(feature = "sim")]
pub mod masks;
#[cfg(feature = "sim")]
pub mod sim;

#[cfg(feature = "sim")]
pub use masks::Mask;
#[cfg(feature = "sim")]
pub use sim::{FlashError, SimFlash};

/// Slots of a page.
pub const PAGE_SLOTS: usize = 512;

/// Bytes of a slot.
pub const SLOT_BYTES: usize = 8;

/// Bytes of a page.
pub const PAGE_BYTES: usize = PAGE_SLOTS * SLOT_BYTES;

/// A program or an erase that was torn: some of its bits may have taken effect, and others not.
#[derive(Clone, Copy, Debug, PartialEq, Eq)]
pub struct FlashFault;

/// NOR flash of 2 to 8 pages of 4,096 bytes. A page has 512 slots of eight bytes, and their number
/// never changes.
pub trait NorFlash {
    /// Returns how many pages there are, 2 to 8.
    fn pages(&self) -> usize;

    /// Reads the eight bytes of slot `slot`, 0 to 511, of page `page`, below `pages()`.
    fn read_slot(&self, page: usize, slot: usize) -> [u8; SLOT_BYTES];

    /// Clears the bits of a slot that are clear in `bytes`. Slot `slot`, 0 to 511, of page `page`,
    /// below `pages()`, then holds what it held, AND `bytes`; no other slot is touched.
    ///
    /// `FlashFault`: the operation was torn. Of the bits that it would have cleared some are clear
    /// and others are as they were; no other bit of the slot, and no other slot, has changed.
    fn program_slot(
        &mut self,
        page: usize,
        slot: usize,
        bytes: [u8; SLOT_BYTES],
    ) -> Result<(), FlashFault>;

    /// Sets every bit of page `page`, below `pages()`; no other page is touched.
    ///
    /// `FlashFault`: the operation was torn. Of the clear bits of the page some are set; no bit
    /// was cleared, and no other page has changed.
    fn erase_page(&mut self, page: usize) -> Result<(), FlashFault>;
}
