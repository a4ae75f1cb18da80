// Exported from crates/layers/src/lib.rt by bin/export-rust. Edit that file instead.
//! Codes, commands and the keymap of a keyboard of four layers and 96 keys.
//!
//! A `Code` says what a key does, a `Command` changes entries of a `Keymap`, and a command is
//! stored as a word of 32 bits. The entry of a key on a layer is that of the last command that
//! wrote it. `Held` keeps the code that each held key got at its press, and gives the `Usages` of
//! HUT pages 07h and 0Ch that these codes name. Nothing here takes memory.
//!
//! A `Keymap` keeps the code of each entry, and a `Held` that of each held key. The guarantee is that
//! an entry is what the last command that writes it says, and that a held key keeps the code of its
//! press. `keymap_store` keeps a `Keymap`, `key_reports` a `Held`, and `keyboard` reads commands.

mod bits;
pub mod code;
pub mod command;
pub mod defaults;
pub mod held;
pub mod keymap;
pub mod usages;

pub use code::{Code, ENTRIES, KeyNo, KeymapError, LayerNo};
pub use command::Command;
pub use defaults::{Defaults, Standard};
pub use held::Held;
pub use keymap::{Keymap, KeymapOf};
pub use usages::Usages;
