//! A log of words of 32 bits in NOR flash, which survives every power loss on flash that keeps the contract of [`NorFlash`].
//!
//! [`FlashLog`] is the log with its flash; [`Log`] is the log alone, which borrows its flash at each call. The trait
//! [`NorFlash`] is the flash: 2 to 8 pages of 512 slots of 8 bytes. A slot keeps a word beside its complement. When a page
//! is full, the words that are still wanted move to the next page, whose header is written last. After a power loss inside
//! any flash operation a mount finds each word that was stored. No allocator is used.
//!
//! [`FlashLog::push`], [`FlashLog::rewrite`] and [`FlashLog::format`] return when all is done. The other calls leave each
//! flash operation to [`FlashLog::step`].
//!
//! [`SlotFlash`] turns a driver into such a flash. The driver has the calls of `embedded-storage` ([`FlashDriver`]), and
//! write and erase units of any size. For a chip with error correction take [`PairedFlash`] on a [`UnitFlash`], or on an
//! [`EccFlash`] of your own, and for one whose torn cells waver, or whose erase programs to 0 first, [`SteadyFlash`] on
//! [`MarkedUnits`]. [`check_driver`] or [`check_marks`], run once on the chip over spare pages, names what the flash does wrong.
//!
//! A flash of your own, here two pages in RAM, implements [`NorFlash`]:
//!
//! ```
//! use wuzhikar_log::{FlashFault, FlashLog, NorFlash, PAGE_SLOTS, SLOT_BYTES};
//!
//! struct Ram([[[u8; SLOT_BYTES]; PAGE_SLOTS]; 2]);
//!
//! impl NorFlash for Ram {
//!     fn pages(&self) -> usize {
//!         2
//!     }
//!
//!     fn read_slot(&self, page: usize, slot: usize) -> [u8; SLOT_BYTES] {
//!         self.0[page][slot]
//!     }
//!
//!     fn program_slot(&mut self, page: usize, slot: usize, bytes: [u8; SLOT_BYTES]) -> Result<(), FlashFault> {
//!         self.0[page][slot].iter_mut().zip(bytes).for_each(|(cell, byte)| *cell &= byte);
//!         Ok(())
//!     }
//!
//!     fn erase_page(&mut self, page: usize) -> Result<(), FlashFault> {
//!         self.0[page] = [[0xFF; SLOT_BYTES]; PAGE_SLOTS];
//!         Ok(())
//!     }
//! }
//!
//! let mut log = FlashLog::mount(Ram([[[0xFF; SLOT_BYTES]; PAGE_SLOTS]; 2]))?;
//! log.rewrite([5, 6])?;
//! log.push(7)?;
//! assert!(log.words().eq([5, 6, 7]));
//! # Ok::<(), Box<dyn core::error::Error>>(())
//! ```
//!
//! **Exported from a proved source.** The hidden module `parts` holds the code of crates that are proved in Rattle
//! (Rust with contracts), without what only the prover reads. The proofs are about that source, and a flash that does
//! what [`NorFlash`] says of each call. What is written by hand in this crate is tested and not proved.
#![no_std]
#![forbid(unsafe_code)]
#![warn(missing_debug_implementations)]

#[cfg(feature = "sim")]
extern crate alloc;
#[cfg(test)]
extern crate std;

#[doc(hidden)]
pub mod calls;
mod check_driver;
mod driver;
mod face;
mod marked_units;
mod mend;
mod page_count;
#[cfg(feature = "settings")]
pub mod paged;
#[doc(hidden)]
pub mod parts;
#[cfg(test)]
mod ram;
#[doc(hidden)]
pub mod rattle;
#[cfg(feature = "settings")]
mod settings;
mod slot_flash;
mod steady_flash;
mod unit_flash;
mod units;
mod whole;

pub use crate::check_driver::{DriverFault, Place, check_driver, check_marks};
pub use crate::driver::FlashDriver;
pub use crate::face::{FlashLog, LogRefusal};
pub use crate::marked_units::MarkedUnits;
pub use crate::mend::mend_pages;
pub use crate::page_count::PageCount;
pub use crate::parts::ecc_flash::{EccFlash, PAGE_UNITS, PairedFlash, UNIT_BYTES};
#[cfg(feature = "sim")]
pub use crate::parts::flash_model::{FlashError, Mask, SimFlash};
pub use crate::parts::flash_model::{FlashFault, NorFlash, PAGE_BYTES, PAGE_SLOTS, SLOT_BYTES};
pub use crate::parts::page_turnover::{Log, Step, TurnRefusal, Unsound, Words};
#[cfg(feature = "settings")]
pub use crate::parts::settings::{
    Change, FREE_ENTRY, MAX_BYTES, SettingsError, TableTooSmall, Value, Work, table_contains, table_value,
};
pub use crate::parts::steady_flash::{MarkedFlash, MountError, SteadyFlash, Unmounted};
#[cfg(feature = "settings")]
pub use crate::settings::{FlashSettings, UnderWay};
pub use crate::slot_flash::SlotFlash;
pub use crate::unit_flash::UnitFlash;
pub use crate::units::GeometryError;
pub use crate::whole::{Dropped, WriteError};
