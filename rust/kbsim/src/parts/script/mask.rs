// Exported from crates/script/src/mask.rt by bin/export-rust. Edit that file instead.
//! The masks of torn operations, as lines write them.

use crate::parts::script::LineFault;
use crate::parts::script::number::bytes_up_to;
use arrayvec::ArrayVec;
use wuzhikar_log::parts::flash_model::Mask;

/// The word of a mask: 1 to 4,096 bytes in hex, two digits a byte, or `-` for none. Its bytes are read
/// where they are used, so that a script takes no memory for its masks beside its text. Two are equal
/// where they are written alike.
#[derive(Debug)]
pub struct MaskWord<'t> {
    word: &'t [u8],
}

impl<'t> MaskWord<'t> {
    /// The word of a mask; `BadHex` where it writes none.
    pub(crate) fn read(word: &'t [u8]) -> Result<MaskWord<'t>, LineFault> {
        mask_of(word)?;
        Ok(MaskWord { word })
    }

    /// The mask.
    pub fn mask(&self) -> Mask {
        match mask_of(self.word) {
            Ok(mask) => mask,
            Err(_) => unreachable!(),
        }
    }
}

impl<'t> PartialEq for MaskWord<'t> {
    fn eq(&self, other: &MaskWord<'t>) -> bool {
        self.word == other.word
    }
}

impl<'t> Eq for MaskWord<'t> {
}

/// The mask that a word writes; `BadHex` where it writes none.
fn mask_of(word: &[u8]) -> Result<Mask, LineFault> {
    match word {
        b"-" => Ok(ArrayVec::new()),
        _ => match bytes_up_to(word) {
            Ok(mask) => Ok(mask),
            Err(_) => Err(LineFault::BadHex),
        },
    }
}
