//! The intake of texts: the bytes that a text says, in each form that the program kbsim takes. An instance takes one text.

use crate::memory::Kept;
use crate::{BUFFER, REFUSED};
use alloc::vec::Vec;
use wuzhikar_hid::texts::{Form, taken};

/// The text, and then what came of it.
static TEXT: Kept<Vec<u8>> = Kept::new(Vec::new());

/// Takes the first `length` bytes of the buffer as the next piece of the text. 0; refused where there is no memory.
#[unsafe(no_mangle)]
pub extern "C" fn text_piece(length: usize) -> i32 {
    BUFFER.with(|buffer| {
        TEXT.with(|text| match buffer.get(..length) {
            Some(piece) if text.try_reserve(length).is_ok() => {
                text.extend_from_slice(piece);
                0
            }
            _ => REFUSED,
        })
    })
}

/// Reads the text, as hex where `hex_first` is not 0 and it is that: 0 where it says bytes, 1 where it is the bytes itself, and
/// -1 where it is refused. What came of it, the bytes or the sentence, is then told by [`text_told`].
#[unsafe(no_mangle)]
pub extern "C" fn text_taken(hex_first: u32) -> i32 {
    TEXT.with(|text| {
        let hex = (hex_first != 0).then(|| Form::Hex.read(text).ok()).flatten();
        let (kind, told) = match hex.map_or_else(|| taken(text), |bytes| Ok((Form::Hex, bytes))) {
            Ok((form, bytes)) => (i32::from(form == Form::Bytes), bytes),
            Err((_, fault)) => (-1, fault.sentence(text).into_bytes()),
        };
        *text = told;
        kind
    })
}

/// Writes what came of the text, but for the first `passed` bytes, as far as the buffer has room; how many bytes it has in all.
#[unsafe(no_mangle)]
pub extern "C" fn text_told(passed: usize) -> i32 {
    BUFFER.with(|buffer| {
        TEXT.with(|text| {
            for (place, byte) in buffer.iter_mut().zip(text.iter().skip(passed)) {
                *place = *byte;
            }
            text.len() as i32
        })
    })
}
