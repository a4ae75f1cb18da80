//! Values of reports, by a kept reader. Written by hand; what reads and writes is exported.

mod lenient;
mod physical;
mod raw;
mod reader;
mod write;

#[cfg(test)]
mod tests;

pub use crate::parts::field_values::Within;
pub use crate::parts::report_read::{Changed, Reading, ReadingError, Value};
pub use physical::{NoPhysical, NoValue, Physical};
pub use raw::RawError;
pub use reader::{Reader, ReaderError};
pub use write::{Asked, Setting, Target, WriteError};
