// Exported from crates/text_io/src/read.rt by bin/export-rust. Edit that file instead.
//! Reading all that a reader gives.

use crate::parts::text_io::ReadError;
use crate::rattle::alloc::Global;
use std::io::Read;

/// The most bytes that are asked of a reader at once.
const PIECE: usize = 4096;

/// The length of the longest text in bytes.
const LONGEST: usize = 1_048_576;

/// All that the reader gives, at most 1,048,576 bytes: a script, or a descriptor in hex.
///
/// The errors are those of [`read_whole`], and at most 1,048,577 bytes are taken from the reader.
pub fn read_text<R: Read>(alloc: Global, reader: &mut R) -> Result<crate::rattle::Vec<u8>, ReadError> {
    read_whole(alloc, reader, LONGEST)
}

/// All that the reader gives, at most `most` bytes.
///
/// `TooLong` comes where there are more, `Input` at the first fault of the reader, an interruption too, and `Memory`
/// where the bytes find no room. At most one byte more than `most` is taken from the reader.
pub fn read_whole<R: Read>(alloc: Global, reader: &mut R, most: usize) -> Result<crate::rattle::Vec<u8>, ReadError> {
    let mut text = crate::rattle::vec::new(alloc);
    let mut piece = [0u8; PIECE];
    loop {
        let left = most - text.len();
        let place = &mut piece[..PIECE.min(left.saturating_add(1))];
        let Ok(count) = reader.read(place) else {
            return Err(ReadError::Input);
        };
        if count == 0 {
            return Ok(text);
        }
        if count > left {
            return Err(ReadError::TooLong);
        }
        if text.extend_in(&place[..count]).is_err() {
            return Err(ReadError::Memory);
        }
    }
}

#[allow(unused_imports)]
use crate::rattle::memory::*;
