// Exported from crates/kbsim/src/flash.rt by bin/export-rust. Edit that file instead.
//! The flash that a run starts on.

use crate::parts::kbsim::RunError;
use wuzhikar_log::parts::flash_model::{FlashError, PAGE_BYTES, SimFlash};
use crate::rattle::alloc::Global;
use std::io::Read;
use crate::parts::text_io::{ReadError, read_whole};

/// The length of the largest image in bytes.
const LARGEST: usize = 8 * PAGE_BYTES;

/// Makes a blank flash of this many pages of 4,096 bytes: every bit is set, and nothing is armed.
///
/// `PageCount` comes where there are not 2 to 8 pages, and else `Memory` where there is no memory
/// for them.
pub fn blank_flash(alloc: Global, pages: usize) -> Result<SimFlash, RunError> {
    match SimFlash::new(alloc, pages) {
        Ok(flash) => Ok(flash),
        Err(FlashError::PageCount) => Err(RunError::PageCount),
        Err(FlashError::Memory | FlashError::ImageSize) => Err(RunError::Memory),
    }
}

/// Makes a flash that holds the bytes that a reader gives, page after page, with nothing armed. At
/// most 32,769 bytes are taken from the reader.
///
/// `Input` comes at the first fault of the reader, an interruption too, and `Memory` where a
/// request for memory is refused. Then comes `Image` where the bytes are not those of 2 to 8 whole
/// pages of 4,096 bytes.
pub fn image_flash<R: Read>(alloc: Global, reader: &mut R) -> Result<SimFlash, RunError> {
    match read_whole(alloc, reader, LARGEST) {
        Ok(image) => SimFlash::from_image(image).map_err(|_| RunError::Image),
        Err(ReadError::TooLong) => Err(RunError::Image),
        Err(ReadError::Input) => Err(RunError::Input),
        Err(ReadError::Memory) => Err(RunError::Memory),
    }
}

#[allow(unused_imports)]
use wuzhikar_log::calls::SimCalls as _;
