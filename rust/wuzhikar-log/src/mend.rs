//! Pages on which nothing may be written, made blank. Written by hand: tested, not proved.

use crate::parts::flash_model::{FlashFault, NorFlash, SLOT_BYTES};

/// Erases each page whose first slot is unsound, so that the log on these pages is written again; the active page is none of them.
/// Returns how many there were.
///
/// Call it before the log, the settings or the keyboard is mounted, where `Unsound` says that nothing may be written. What stood on
/// the erased pages is lost: also the words of the latest compaction, if something else has damaged the header of its page.
///
/// Over [`SteadyFlash`](crate::SteadyFlash) the power may be lost inside it: it is called again. **On any other flash no power loss
/// may come inside it**, since an erase that is torn may leave a greater header than that of the active page.
///
/// ```
/// # fn main() -> Result<(), Box<dyn core::error::Error>> {
/// use wuzhikar_log::{FlashLog, NorFlash, SimFlash, mend_pages};
///
/// let mut log = FlashLog::mount(SimFlash::blank(2)?)?;
/// log.rewrite([5, 6])?;
/// let mut flash = log.into_flash();
/// flash.program_slot(1, 0, [0; 8])?;
/// let mut log = FlashLog::mount(flash)?;
/// assert!(log.push(7).is_err());
///
/// let mut flash = log.into_flash();
/// assert_eq!(mend_pages(&mut flash), Ok(1));
/// let mut log = FlashLog::mount(flash)?;
/// log.push(7)?;
/// assert_eq!(log.words().collect::<Vec<u32>>(), [5, 6, 7]);
/// # Ok(())
/// # }
/// ```
///
/// # Errors
///
/// `FlashFault` if a page can't be erased. Pages before it are erased, and those behind it are as they were.
pub fn mend_pages<F: NorFlash>(flash: &mut F) -> Result<usize, FlashFault> {
    let mut mended = 0;
    for page in 0..flash.pages() {
        if is_unsound(flash.read_slot(page, 0)) {
            flash.erase_page(page)?;
            mended += 1;
        }
    }
    Ok(mended)
}

/// Whether a bit is clear both in the word and in what should be its complement. No header is.
fn is_unsound(slot: [u8; SLOT_BYTES]) -> bool {
    let bits = u64::from_le_bytes(slot);
    (bits | bits >> 32) as u32 != u32::MAX
}
