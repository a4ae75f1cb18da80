// Exported from crates/ecc_flash/src/paired.rt by bin/export-rust. Edit that file instead.
//! The adapter: each slot in two write units.

use crate::parts::ecc_flash::reading::{UNIT_BYTES, check_of_word, is_blank, is_log_word, read};
use crate::parts::ecc_flash::{EccFlash, PAGE_UNITS};
use crate::parts::flash_model::{FlashFault, NorFlash, PAGE_SLOTS, SLOT_BYTES};

/// A flash with error correction, of which each slot is kept in two write units.
///
/// Slot `s` of a page stands in its units `2 * s` and `2 * s + 1`. Only words of a log are
/// programmed, which have bit 31 clear, and only into a slot that is Free: any other program is a
/// fault, and touches nothing. A program costs two unit programs, and four unit reads.
///
/// ```rust
/// # use wuzhikar_log::{EccFlash, FlashFault, PAGE_UNITS, UNIT_BYTES};
/// use wuzhikar_log::{FlashLog, PairedFlash};
///
/// # struct Ram([[[u8; UNIT_BYTES]; PAGE_UNITS]; 2]);
/// # impl EccFlash for Ram {
/// #     fn pages(&self) -> usize { 2 }
/// #     fn read_unit(&self, page: usize, unit: usize) -> Option<[u8; UNIT_BYTES]> { Some(self.0[page][unit]) }
/// #     fn program_unit(&mut self, page: usize, unit: usize, bytes: [u8; UNIT_BYTES]) -> Result<(), FlashFault> {
/// #         self.0[page][unit] = bytes;
/// #         Ok(())
/// #     }
/// #     fn erase_units(&mut self, page: usize) -> Result<(), FlashFault> {
/// #         self.0[page] = [[0xff; UNIT_BYTES]; PAGE_UNITS];
/// #         Ok(())
/// #     }
/// # }
/// # let units = Ram([[[0xff; UNIT_BYTES]; PAGE_UNITS]; 2]);
/// // `units` is the chip's flash, an `EccFlash`.
/// let mut log = FlashLog::mount(PairedFlash::mount(units))?;
/// log.rewrite([])?;
/// log.push(7)?;
/// assert_eq!(log.words().collect::<Vec<_>>(), [7]);
/// # Ok::<(), Box<dyn std::error::Error>>(())
/// ```
#[derive(Debug)]
pub struct PairedFlash<F: EccFlash> {
    flash: F,
    operations: u64,
    faults: u64,
}

impl<F: EccFlash> PairedFlash<F> {
    /// **Needs** a flash that [`PairedFlash::format`] made, and that nothing but such an adapter wrote to since. Nothing checks it.
    ///
    /// Makes the adapter of a flash that `format` made, and that nothing but such an adapter wrote to
    /// since. It writes nothing; both counts are 0.
    pub fn mount(flash: F) -> PairedFlash<F> {
        let _pages = flash.pages();
        PairedFlash {
            flash,
            operations: 0,
            faults: 0,
        }
    }

    /// Erases all of a flash, whatever it holds, and makes its adapter. What it held is lost.
    ///
    /// `FlashFault`: a page does not read as erased, or the flash told of a fault. On a healthy flash
    /// that does not come.
    pub fn format(mut flash: F) -> Result<PairedFlash<F>, FlashFault> {
        let pages = flash.pages();
        for page in 0..pages {
            erase_units(&mut flash, page)?;
        }
        Ok(PairedFlash::mount(flash))
    }

    /// Returns the flash, with what was written to it.
    pub fn into_flash(self) -> F {
        self.flash
    }

    /// How many pages there are.
    fn page_total(&self) -> usize {
        self.flash.pages()
    }
}

impl<F: EccFlash> NorFlash for PairedFlash<F> {
    fn pages(&self) -> usize {
        self.page_total()
    }

    fn read_slot(&self, page: usize, slot: usize) -> [u8; SLOT_BYTES] {
        let unit = 2 * slot as u16;
        let first = self.flash.read_unit(page, unit as usize);
        let second = self.flash.read_unit(page, (unit + 1) as usize);
        read(first, second)
    }

    fn program_slot(
        &mut self,
        page: usize,
        slot: usize,
        bytes: [u8; SLOT_BYTES],
    ) -> Result<(), FlashFault> {
        self.operations = self.operations.wrapping_add(1);
        let done = program(&mut self.flash, page, slot, bytes);
        if done.is_err() {
            self.faults = self.faults.wrapping_add(1);
        }
        done
    }

    fn erase_page(&mut self, page: usize) -> Result<(), FlashFault> {
        self.operations = self.operations.wrapping_add(1);
        let done = erase(&mut self.flash, page);
        if done.is_err() {
            self.faults = self.faults.wrapping_add(1);
        }
        done
    }
}

/// Programs a slot that is Free: the first unit with the word, and once that reads back, the second
/// with the check. Where the first unit takes nothing, the second is written all the same, so that
/// the slot is passed over from then on.
fn program<F: EccFlash>(
    flash: &mut F,
    page: usize,
    slot: usize,
    bytes: [u8; SLOT_BYTES],
) -> Result<(), FlashFault> {
    let unit = 2 * slot as u16;
    let first = unit as usize;
    let second = (unit + 1) as usize;
    if !is_log_word(bytes) || !is_free(flash, page, first) || !is_free(flash, page, second) {
        return Err(FlashFault);
    }
    match write_unit(flash, page, first, bytes) {
        Ok(()) => match write_unit(flash, page, second, check_of_word(bytes)) {
            Ok(()) => Ok(()),
            Err(fault) => Err(fault),
        },
        Err(fault) => {
            if is_free(flash, page, first) {
                let _marked = flash.program_unit(page, second, ZEROS);
            }
            Err(fault)
        }
    }
}

/// Programs a unit, and reads it back.
fn write_unit<F: EccFlash>(
    flash: &mut F,
    page: usize,
    unit: usize,
    bytes: [u8; UNIT_BYTES],
) -> Result<(), FlashFault> {
    let done = flash.program_unit(page, unit, bytes);
    let now = flash.read_unit(page, unit);
    if now == Some(bytes) {
        done
    } else {
        Err(FlashFault)
    }
}

/// Erases the units of a page, and reads them back.
fn erase<F: EccFlash>(flash: &mut F, page: usize) -> Result<(), FlashFault> {
    match erase_units(flash, page) {
        Ok(()) => Ok(()),
        Err(fault) => Err(fault),
    }
}

/// The same, whatever the units were.
fn erase_units<F: EccFlash>(flash: &mut F, page: usize) -> Result<(), FlashFault> {
    let done = flash.erase_units(page);
    if is_erased(flash, page) {
        done
    } else {
        Err(FlashFault)
    }
}

/// Whether each unit of a page reads blank.
fn is_erased<F: EccFlash>(flash: &F, page: usize) -> bool {
    for unit in 0..PAGE_UNITS {
        if !is_free(flash, page, unit) {
            return false;
        }
    }
    true
}

/// Whether a unit reads blank. A driver's read is long, and would stand in four places.
#[inline(never)]
fn is_free<F: EccFlash>(flash: &F, page: usize, unit: usize) -> bool {
    is_blank(flash.read_unit(page, unit))
}

/// What the second unit is programmed with where the first one took nothing.
const ZEROS: [u8; UNIT_BYTES] = [0; UNIT_BYTES];
