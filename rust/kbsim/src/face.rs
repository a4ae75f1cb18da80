//! The calls as they are in Rust, without an allocator. Written by hand: tested, not proved.

use crate::parts::host::Host;
use crate::parts::kbsim::{self, RunError, Sink};
use crate::parts::parse_lines::{self, LinesError};
use crate::parts::world::WorldOf;
use std::io::{Read, Write};
use wuzhikar::Defaults;
use wuzhikar_log::SimFlash;
use wuzhikar_reader::AllocError;

/// Runs the script of a reader on a blank flash of `pages` pages, 2 to 8, and prints a line for each answer.
///
/// # Errors
///
/// A fault of the script is printed in place of all lines, and returned. `Memory` may also come after printed lines. `Output`
/// prints nothing, nor does `PageCount`, for which nothing is read.
pub fn run_script<R: Read, W: Write>(pages: usize, reader: &mut R, writer: &mut W) -> Result<(), RunError> {
    kbsim::run_script((), pages, reader, writer)
}

/// Runs the script of a reader on this flash as [`run_script`] does, and returns the flash after it.
///
/// # Errors
///
/// As [`run_script`]; the flash is dropped then.
pub fn run_on<R: Read, W: Write>(flash: SimFlash, reader: &mut R, writer: &mut W) -> Result<SimFlash, RunError> {
    kbsim::run_on((), flash, reader, writer)
}

/// Runs a script as [`run_on`] does, and hands a sink each event with its answer and flash operation, and each line.
///
/// # Errors
///
/// As [`run_on`].
///
/// ```
/// use kbsim::{Line, Outcome, SimFlash, Sink, Step, World, run_with};
///
/// /// Counts flash operations.
/// struct Counter(usize);
///
/// impl Sink for Counter {
///     fn hears(&self) -> bool {
///         false
///     }
///
///     fn step(&mut self, step: &Step<'_>) {
///         self.0 += usize::from(step.operation.is_some());
///     }
///
///     fn line(&mut self, _line: &Line<'_>, _outcome: &Outcome, _world: &World) {}
/// }
///
/// let (mut counter, mut lines) = (Counter(0), Vec::new());
/// run_with(SimFlash::blank(2)?, &mut "set 0 0 0005\n".as_bytes(), &mut lines, &mut counter)?;
/// // A header and a record.
/// assert_eq!((counter.0, lines.as_slice()), (2, &b"1 ack\n"[..]));
/// # Ok::<(), Box<dyn std::error::Error>>(())
/// ```
pub fn run_with<R: Read, W: Write, S: Sink>(
    flash: SimFlash,
    reader: &mut R,
    writer: &mut W,
    sink: &mut S,
) -> Result<SimFlash, RunError> {
    kbsim::run_with((), flash, reader, writer, sink)
}

/// Makes a blank flash of `pages` pages, 2 to 8.
///
/// # Errors
///
/// `RunError` names another number of pages, or refused memory.
pub fn blank_flash(pages: usize) -> Result<SimFlash, RunError> {
    kbsim::blank_flash((), pages)
}

/// Makes a flash of the bytes of a reader: 2 to 8 pages of 4,096 bytes.
///
/// # Errors
///
/// `RunError` says that the bytes are no such image, that the reader failed, or that memory was refused.
pub fn image_flash<R: Read>(reader: &mut R) -> Result<SimFlash, RunError> {
    kbsim::image_flash((), reader)
}

/// Prints a line for each field of a report descriptor, which a reader gives in hex, or its first fault.
///
/// # Errors
///
/// `LinesError` says what is wrong with the text, or that reader, writer or memory failed.
///
/// ```
/// let mut lines = Vec::new();
/// kbsim::parse_text(&mut "05 09 09 01 25 01 75 01 95 01 81 02".as_bytes(), &mut lines)?;
/// assert_eq!(lines, b"input 0 0 1 1 0 1 variable 00090001\n");
/// # Ok::<(), Box<dyn std::error::Error>>(())
/// ```
pub fn parse_text<R: Read, W: Write>(reader: &mut R, writer: &mut W) -> Result<(), LinesError> {
    parse_lines::parse_text((), reader, writer)
}

impl<D: Defaults> WorldOf<D> {
    /// Starts a keyboard on a flash, beside a host that has read nothing.
    ///
    /// # Errors
    ///
    /// `AllocError` if memory was refused. The flash is dropped then.
    ///
    /// ```
    /// use kbsim::{Answer, Event, Scan, SimFlash, World};
    ///
    /// let mut world = World::on(SimFlash::blank(2)?)?;
    /// // Key 0 is closed for five milliseconds; then the host polls.
    /// let mut events = vec![Event::Scan(Scan { rows: [1, 0, 0, 0, 0, 0] }); 5];
    /// events.push(Event::Poll);
    /// let mut answers = Vec::new();
    /// world.run(&events, &mut answers)?;
    /// assert!(matches!(&answers[5], Answer::Sent { bytes, .. } if bytes[..3] == [1, 0, 1]));
    /// world.run(&[Event::Cut], &mut answers)?;
    /// assert_eq!(answers[6], Answer::Restarted);
    /// # Ok::<(), Box<dyn std::error::Error>>(())
    /// ```
    pub fn on(flash: SimFlash) -> Result<WorldOf<D>, AllocError> {
        WorldOf::new((), flash)
    }
}

impl Default for Host {
    /// Makes a host that has read nothing.
    fn default() -> Host {
        Host::new(())
    }
}
