// Exported from crates/keymap_store/src/command_word.rt by bin/export-rust. Edit that file instead.
//! Commands that are kept as the words that they are stored as.

use crate::parts::layers::{Code, Command, KeyNo, LayerNo};

/// A command as the word of 32 bits that it is stored as: four bytes, which are passed on as one.
#[derive(Clone, Copy, Debug)]
pub struct CommandWord {
    word: u32,
}

impl CommandWord {
    /// Keeps a command as its word.
    #[inline(always)]
    pub fn of(command: Command) -> CommandWord {
        CommandWord {
            word: command.word(),
        }
    }

    /// Returns the command.
    #[inline(always)]
    pub fn command(self) -> Command {
        let (layer, key) = (self.word / 0x100_0000 % 16, self.word / 0x1_0000 % 256);
        match self.word / 0x1000_0000 {
            1 => Command::SetKey {
                layer: LayerNo::known(layer as u8),
                key: KeyNo::known(key as u8),
                code: Code::known((self.word % 0x1_0000) as u16),
            },
            2 => Command::ResetLayer(LayerNo::known(layer as u8)),
            _ => Command::ResetAll,
        }
    }

    /// Returns the word of the command.
    #[inline(always)]
    pub fn word(self) -> u32 {
        self.word
    }
}
