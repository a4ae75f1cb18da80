// Exported from crates/steady_flash/src/lib.rt by bin/export-rust. Edit that file instead.
//! Flash whose torn cells waver as `NorFlash`: pages that move to a spare one.
//!
//! `MarkedFlash` is the flash, and `SteadyFlash` the adapter. A cell that an operation was torn at may
//! read as set now and as clear later, and an erase may program to 0 before it sets. So a start copies
//! each page that was written to a spare page, as it reads then, and marks say which page counts.

pub mod errors;
pub mod layout;
pub mod making;
pub mod marks;
pub mod moving;
pub mod starting;
pub mod steady;
pub mod writing;

pub use errors::{MountError, Unmounted};
use crate::parts::flash_model::{FlashFault, PAGE_SLOTS, SLOT_BYTES};
pub use steady::SteadyFlash;

/// A NOR flash of 3 to 9 pages, each with 512 slots and, in erase units of their own, marks of eight bytes: one, and three for each
/// of its triples. [`SteadyFlash`](crate::SteadyFlash) makes the flash of a log from it, with one page less.
///
/// **What is asked of the hardware.** A cell is set, clear or in doubt; one in doubt may read as either, each time anew.
///
/// - A whole program makes each cell that is to be clear firmly clear. A torn one leaves each of these as it was, clear or in
///   doubt; a cell that was firmly clear stays so. No other cell changes.
/// - A whole erase makes each cell of its units firmly set. A torn one leaves them anything, also in doubt. A mark then reads as what
///   it held or as no word: no word comes from nowhere. No other unit changes.
/// - A mark may be programmed again with the same bits: once in the ordinary course, and once more for each power loss or fault
///   until its step is whole. So may a slot, for each fault. A mark into which zeros were torn may be programmed with other bits.
///   Some chips refuse a second program: look it up. [`check_marks`](crate::check_marks) tries it.
pub trait MarkedFlash {
    /// Returns how many pages there are, 3 to 9: one more than the log gets.
    fn pages(&self) -> usize;

    /// Returns how many triples of marks a page has, 8 to 80. Marks are counted from 0 to three times as many.
    fn triples(&self) -> usize;

    /// Reads the eight bytes of slot `slot`, 0 to 511, of page `page`.
    fn read_slot(&self, page: usize, slot: usize) -> [u8; SLOT_BYTES];

    /// Reads the eight bytes of mark `mark` of page `page`.
    fn read_mark(&self, page: usize, mark: usize) -> [u8; SLOT_BYTES];

    /// Clears the bits of a slot that are clear in `bytes`. `FlashFault`: the program was torn.
    fn program_slot(
        &mut self,
        page: usize,
        slot: usize,
        bytes: [u8; SLOT_BYTES],
    ) -> Result<(), FlashFault>;

    /// Clears the bits of a mark that are clear in `bytes`. `FlashFault`: the program was torn.
    fn program_mark(
        &mut self,
        page: usize,
        mark: usize,
        bytes: [u8; SLOT_BYTES],
    ) -> Result<(), FlashFault>;

    /// Sets every bit of the slots of page `page`, and leaves its marks. `FlashFault`: the erase was torn.
    fn erase_slots(&mut self, page: usize) -> Result<(), FlashFault>;

    /// Sets every bit of the marks of page `page`, and leaves its slots. `FlashFault`: the erase was torn.
    fn erase_marks(&mut self, page: usize) -> Result<(), FlashFault>;

    /// Returns whether a read failed, so that what was read may be wrong. Nothing is written then.
    fn is_unreadable(&self) -> bool;

    /// Resets the chip ([`FlashDriver::give_up`](crate::FlashDriver::give_up)).
    fn give_up(&mut self);
}
