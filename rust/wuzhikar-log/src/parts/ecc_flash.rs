// Exported from crates/ecc_flash/src/lib.rt by bin/export-rust. Edit that file instead.
//! Flash with error correction as `NorFlash`: two write units for a slot.
//!
//! `EccFlash` is the flash, whose units are written once between erases, and `PairedFlash` the
//! adapter. A `PairedFlash` keeps the flash and both counts, and no table. The first unit of a slot
//! holds the word beside its complement; the second a check of the word beside the check's
//! complement. In the check each byte of the word is XORed with the byte before it, so that each bit
//! of the word turns two bits of the check, and four of the unit.
//!
//! The guarantee is that of `NorFlash`: a torn operation leaves no other word than that which was
//! meant. A driver implements `EccFlash`; a log, a store and a keyboard run on a
//! `PairedFlash`.
//!
//! On a healthy flash a `PairedFlash` stores: each word of a log goes into a slot that is
//! Free, each page is erased, and a format succeeds.

pub mod cut;
pub mod paired;
pub mod reading;

pub use cut::CutFlash;
use crate::parts::flash_model::FlashFault;
pub use paired::PairedFlash;
pub use reading::UNIT_BYTES;

/// Write units of a page: two for each slot.
pub const PAGE_UNITS: usize = 1024;

/// Flash with error correction: 2 to 8 pages of 1,024 write units of eight bytes.
///
/// A driver of a flash with longer write units gives each the eight bytes, filled up with FFh, and
/// puts as many erase units together as hold 1,024 of them. An answer `Ok` is relied on for nothing:
/// what was written is read back.
///
/// What each clause asks of the hardware:
///
/// - `read_unit`: that reads don't change between two operations, and that a double error, which
///   many chips tell by an interrupt, is answered with `None`. FFh is answered only where each cell
///   is set: where the chip tells that a bit was corrected in it, the answer is `None`.
/// - the outcome of `program_unit` and `erase_units`: that the error correction corrects one cell of a
///   unit at most, and that a program only clears cells and an erase only sets them; the rest follows
///   from this. A maker of a flash with another correction shows, or trusts, these clauses alone.
/// - `others`: that no other unit, and no other page, is disturbed.
///
/// ```rust
/// use wuzhikar_log::{EccFlash, FlashFault, PAGE_UNITS, UNIT_BYTES};
///
/// /// Units in RAM that read as they were programmed.
/// struct Ram([[[u8; UNIT_BYTES]; PAGE_UNITS]; 2]);
///
/// impl EccFlash for Ram {
///     fn pages(&self) -> usize {
///         2
///     }
///     fn read_unit(&self, page: usize, unit: usize) -> Option<[u8; UNIT_BYTES]> {
///         Some(self.0[page][unit])
///     }
///     fn program_unit(&mut self, page: usize, unit: usize, bytes: [u8; UNIT_BYTES]) -> Result<(), FlashFault> {
///         self.0[page][unit] = bytes;
///         Ok(())
///     }
///     fn erase_units(&mut self, page: usize) -> Result<(), FlashFault> {
///         self.0[page] = [[0xff; UNIT_BYTES]; PAGE_UNITS];
///         Ok(())
///     }
/// }
/// # assert_eq!(Ram([[[0xff; UNIT_BYTES]; PAGE_UNITS]; 2]).pages(), 2);
/// ```
pub trait EccFlash {
    /// Returns how many pages there are, 2 to 8.
    fn pages(&self) -> usize;

    /// Returns what unit `unit`, 0 to 1,023, of page `page` reads as; `None` where that is an error.
    fn read_unit(&self, page: usize, unit: usize) -> Option<[u8; UNIT_BYTES]>;

    /// Programs unit `unit`, 0 to 1,023, of page `page`, which reads as eight bytes FFh.
    ///
    /// Whatever the answer: the flash refused the program, and nothing has changed, or the unit was
    /// programmed, as a whole or in part. `FlashFault`: the flash told of a fault.
    fn program_unit(
        &mut self,
        page: usize,
        unit: usize,
        bytes: [u8; UNIT_BYTES],
    ) -> Result<(), FlashFault>;

    /// Erases page `page`.
    ///
    /// Whatever the answer: the page was erased, as a whole, in part or not at all. `FlashFault`: the
    /// flash told of a fault.
    fn erase_units(&mut self, page: usize) -> Result<(), FlashFault>;
}
