// Exported from crates/layers/src/command.rt by bin/export-rust. Edit that file instead.
//! Commands that change a keymap, and the words that they are stored as.

use crate::parts::layers::{Code, KeyNo, KeymapError, LayerNo};

/// A change of a keymap.
#[derive(Clone, Copy, Debug, PartialEq, Eq)]
pub enum Command {
    /// The key gets this code on this layer.
    SetKey {
        layer: LayerNo,
        key: KeyNo,
        code: Code,
    },
    /// Each key of the layer gets its default code.
    ResetLayer(LayerNo),
    /// Each key of each layer gets its default code.
    ResetAll,
}

/// The usages of the consumer page that format 1 has codes for, in the order of their codes.
const CONSUMER_LIST: [u16; 16] = [
    0xB0, 0xB1, 0xB2, 0xB3, 0xB4, 0xB5, 0xB6, 0xB7, 0xB8, 0xCD, 0xE2, 0xE9, 0xEA, 0x192, 0x223,
    0x224,
];

impl Command {
    /// The command of operation 1, 2 or 3; what the operation does not use is ignored. In this
    /// order `BadOperation` for another operation, `BadLayer`, `BadKey` and `BadCode`.
    #[inline(always)]
    pub fn read(op: u8, layer: u8, key: u8, code: u16) -> Result<Command, KeymapError> {
        match op {
            1 => Ok(Command::SetKey {
                layer: LayerNo::read(layer)?,
                key: KeyNo::read(key)?,
                code: Code::read(code)?,
            }),
            2 => Ok(Command::ResetLayer(LayerNo::read(layer)?)),
            3 => Ok(Command::ResetAll),
            _ => Err(KeymapError::BadOperation),
        }
    }

    /// The command that a word stands for: bits 28 to 31 the operation, 24 to 27 the layer, 16 to
    /// 23 the key, 0 to 15 the code, and 0 in what the operation does not use. None where the word
    /// is that of no command.
    #[inline(always)]
    pub fn from_word(word: u32) -> Option<Command> {
        let layer = (word / 0x100_0000 % 16) as u8;
        match word / 0x1000_0000 {
            1 => {
                let (key, code) = (word / 0x1_0000 % 256, word % 0x1_0000);
                Command::read(1, layer, key as u8, code as u16).ok()
            }
            2 if word % 0x100_0000 == 0 => Command::read(2, layer, 0, 0).ok(),
            3 if word % 0x1000_0000 == 0 => Some(Command::ResetAll),
            _ => None,
        }
    }

    /// The command that a word stands for on a page of format 1. There the codes 4000h to 400Fh are
    /// the usages B0h to B8h, CDh, E2h, E9h, EAh, 192h, 223h and 224h of the consumer page, and no
    /// other code is a consumer usage; all else is as `from_word` reads it.
    pub fn from_format_1(word: u32) -> Option<Command> {
        match code_of_format_1((word % 0x1_0000) as u16) {
            Some(code) => Command::from_word(0x1_0000 * (word / 0x1_0000) + code as u32),
            None => None,
        }
    }

    /// The word of the command.
    #[inline(always)]
    pub fn word(self) -> u32 {
        match self {
            Command::SetKey { layer, key, code } => word_with(
                1,
                layer.number(),
                key.number(),
                code.bits(),
            ),
            Command::ResetLayer(layer) => word_with(2, layer.number(), 0, 0),
            Command::ResetAll => word_with(3, 0, 0, 0),
        }
    }
}

/// The code of format 2 that a code of format 1 is, if it is one.
fn code_of_format_1(code: u16) -> Option<u16> {
    match code {
        0x4000..=0x400F => Some(0x4000 + CONSUMER_LIST[(code - 0x4000) as usize]),
        0x4010..=0x43FF => None,
        _ => Code::read(code).ok().map(|code| code.bits()),
    }
}

/// The word of these fields.
fn word_with(op: u8, layer: u8, key: u8, code: u16) -> u32 {
    0x1000_0000 * op as u32 + 0x100_0000 * layer as u32 + 0x1_0000 * key as u32 + code as u32
}
