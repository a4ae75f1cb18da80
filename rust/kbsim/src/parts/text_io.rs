// Exported from crates/text_io/src/lib.rt by bin/export-rust. Edit that file instead.
//! Text in and out: all that a reader gives, read up to a limit, and values printed to a writer in few writes.
//!
//! [`read_whole`] ends at the first fault of its reader, and takes no more of it than it must. A [`Printer`] prints
//! whatever shows itself, with [`HexDigits`] and [`HexWord`] among it, and hands it on in pieces of at most 4,096 bytes,
//! or a longer piece of text as it is; its one guarantee is that the writer has, once the printer is finished, just what
//! was printed, in order. Both tell an interruption as a fault. The crates that read scripts and
//! descriptors from any reader, and print lines to any writer, stand on it.

mod digits;
mod fault;
mod print;
mod read;

pub use digits::{HexDigits, HexWord};
pub use fault::{ReadError, WriteError};
pub use print::Printer;
pub use read::{read_text, read_whole};
