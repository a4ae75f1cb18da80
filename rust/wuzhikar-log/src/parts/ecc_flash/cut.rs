// Exported from crates/ecc_flash/src/cut.rt by bin/export-rust. Edit that file instead.
//! A cut of the power inside an operation of the adapter.
//!
//! A `CutFlash` is any flash whose power fails inside one of its programs and erases: that one may be
//! torn, and from then on nothing is written. `PairedFlash` is proved on every `EccFlash`, and so on
//! this one: what an operation of it leaves there is what the units held when the power failed.

use crate::parts::ecc_flash::{EccFlash, PAGE_UNITS, UNIT_BYTES};
use crate::parts::flash_model::FlashFault;

/// A flash whose power fails inside a program or an erase.
#[derive(Debug)]
pub struct CutFlash<F: EccFlash> {
    flash: F,
    left: Option<u32>,
}

impl<F: EccFlash> CutFlash<F> {
    /// The power fails inside the program or erase of a unit or page that comes after `whole` others.
    pub fn new(flash: F, whole: u32) -> CutFlash<F> {
        CutFlash {
            flash,
            left: Some(whole),
        }
    }

    /// The flash with what was written to it.
    pub fn into_flash(self) -> F {
        self.flash
    }
}

impl<F: EccFlash> EccFlash for CutFlash<F> {
    fn pages(&self) -> usize {
        self.flash.pages()
    }

    fn read_unit(&self, page: usize, unit: usize) -> Option<[u8; UNIT_BYTES]> {
        self.flash.read_unit(page, unit)
    }

    fn program_unit(
        &mut self,
        page: usize,
        unit: usize,
        bytes: [u8; UNIT_BYTES],
    ) -> Result<(), FlashFault> {
        match self.left {
            None => Err(FlashFault),
            Some(0) => {
                self.left = None;
                let _torn = self.flash.program_unit(page, unit, bytes);
                Err(FlashFault)
            }
            Some(left) => {
                self.left = Some(left - 1);
                self.flash.program_unit(page, unit, bytes)
            }
        }
    }

    fn erase_units(&mut self, page: usize) -> Result<(), FlashFault> {
        match self.left {
            None => Err(FlashFault),
            Some(0) => {
                self.left = None;
                let _torn = self.flash.erase_units(page);
                Err(FlashFault)
            }
            Some(left) => {
                self.left = Some(left - 1);
                self.flash.erase_units(page)
            }
        }
    }
}
