// Exported from crates/script/src/lib.rt by bin/export-rust. Edit that file instead.
//! The language of scripts: what each line of a text says, or which fault it has.
//!
//! [`read_lines`] checks a whole script, and [`what_is_wrong`] says of a line that is refused what is wrong with it. Nothing is run
//! here.
//!
//! Nothing is kept. The guarantee is that a script is read as just what its lines say, or refused for its first fault.
//! `kbsim` calls it.

mod complaint;
mod fault;
mod keys;
mod lines;
mod mask;
mod number;
mod read;
mod statement;
mod words;

pub use complaint::{Complaint, Wanted, what_is_wrong};
pub use fault::{LineFault, ScriptError};
pub use mask::MaskWord;
pub use read::{Line, read_lines};
pub use statement::{Action, KEYWORDS, Keyword, Statement};
