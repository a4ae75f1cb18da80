// Exported from crates/text_io/src/print.rt by bin/export-rust. Edit that file instead.
//! Printing to a writer in few writes.

use crate::parts::text_io::WriteError;
use arrayvec::ArrayString;
use core::fmt;
use core::fmt::{Display, Write as _};
use std::io::Write;

/// Text on its way to a writer, which gets it in pieces of at most 4,096 bytes; a longer piece is handed on as it is. It asks
/// for no memory. After a `WriteError` nothing more is to be printed: a part may come twice. What waits when a printer is
/// dropped is lost.
#[derive(Debug)]
pub struct Printer<'w, W> {
    writer: &'w mut W,
    waiting: ArrayString<4096>,
}

impl<'w, W: Write> Printer<'w, W> {
    /// A printer to this writer.
    pub fn new(writer: &'w mut W) -> Printer<'w, W> {
        Printer {
            writer,
            waiting: ArrayString::new(),
        }
    }

    /// Prints a value as it shows itself. `WriteError` comes where the writer fails, is interrupted or takes no byte, and where
    /// the value does not show itself.
    pub fn print<T: Display>(&mut self, shown: &T) -> Result<(), WriteError> {
        match write!(self, "{shown}") {
            Ok(()) => Ok(()),
            Err(_) => Err(WriteError),
        }
    }

    /// Gives the writer all that was printed, and flushes it; nothing waits then. `WriteError` comes where it fails, is
    /// interrupted or takes no byte.
    pub fn finish(&mut self) -> Result<(), WriteError> {
        self.send()?;
        self.writer.flush().map_err(|_| WriteError)
    }

    /// Gives the writer what waits.
    fn send(&mut self) -> Result<(), WriteError> {
        write_whole(self.writer, self.waiting.as_str().as_bytes())?;
        self.waiting.clear();
        Ok(())
    }
}

impl<W: Write> fmt::Write for Printer<'_, W> {
    fn write_str(&mut self, text: &str) -> fmt::Result {
        if self.waiting.try_push_str(text).is_ok() {
            return Ok(());
        }
        self.send().map_err(|_| fmt::Error)?;
        if self.waiting.try_push_str(text).is_ok() {
            return Ok(());
        }
        write_whole(self.writer, text.as_bytes()).map_err(|_| fmt::Error)
    }
}

/// Writes all these bytes. Any fault of the writer ends it, an interruption too.
fn write_whole<W: Write>(writer: &mut W, bytes: &[u8]) -> Result<(), WriteError> {
    let mut rest = bytes;
    while !rest.is_empty() {
        match writer.write(rest) {
            Ok(taken) if taken > 0 => rest = &rest[taken..],
            _ => return Err(WriteError),
        }
    }
    Ok(())
}
