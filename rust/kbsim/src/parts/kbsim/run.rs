// Exported from crates/kbsim/src/run.rt by bin/export-rust. Edit that file instead.
//! Running a script.

use crate::parts::kbsim::action::event_of;
use crate::parts::kbsim::fetch::fetch;
use crate::parts::kbsim::flash::blank_flash;
use crate::parts::kbsim::outcome::Outcome;
use crate::parts::kbsim::print::{FaultLine, PrintedLine};
use crate::parts::kbsim::sink::{Silent, Sink, tell_step};
use crate::parts::kbsim::spare::Spare;
use crate::parts::kbsim::{Answer, Event, RunError, Work, World};
use arrayvec::ArrayVec;
use wuzhikar_log::parts::flash_model::{NorFlash, SimFlash};
use crate::parts::script::{Action, Line, ScriptError, Statement, read_lines};
use crate::rattle::alloc::{AllocError, Global};
use std::io::{Read, Write};
use core::num::NonZeroU16;
use core::slice;
use crate::parts::text_io::{Printer, WriteError, read_text};
use crate::parts::world::Scan;

/// The most steps that a command's flash work takes: an erase, a copy of each of the 384 entries,
/// a header and a record.
const MOST_STEPS: u16 = 387;

/// The SETUP packet of a feature report that carries a command.
const SET_FEATURE: [u8; 8] = [0x21, 0x09, 0x03, 0x03, 0x00, 0x00, 0x06, 0x00];

/// Runs the script that a reader gives, on a blank flash of this many pages, and prints a line
/// for each of its lines.
///
/// The whole script is read, at most 1,048,576 bytes, and checked before the first event is run.
/// The line of a fault is printed last, before the fault is returned.
///
/// `PageCount` comes where there are not 2 to 8 pages, before anything is read, and has no line.
/// `Input` comes at any fault of the reader, an interruption too, and `TooLong` where it gives
/// more bytes. Then comes `Line` with the first line that is not of the language. `Memory` comes
/// wherever a request for memory is refused. `Output` comes where the writer fails or takes no
/// byte; nothing is printed after it.
pub fn run_script<R: Read, W: Write>(
    alloc: Global,
    pages: usize,
    reader: &mut R,
    writer: &mut W,
) -> Result<(), RunError> {
    let flash = match blank_flash(alloc, pages) {
        Ok(flash) => flash,
        Err(RunError::PageCount) => return Err(RunError::PageCount),
        Err(error) => return Err(print_fault(error, writer)),
    };
    run_on(alloc, flash, reader, writer).map(|_| ())
}

/// Runs the script that a reader gives, on this flash, armed or not, and prints a line for each of
/// its lines. The answer is the flash after the last line.
///
/// What is read, checked and printed, and each fault but `PageCount`, is as `run_script` says; the
/// script is checked against the flash's number of pages.
pub fn run_on<R: Read, W: Write>(
    alloc: Global,
    flash: SimFlash,
    reader: &mut R,
    writer: &mut W,
) -> Result<SimFlash, RunError> {
    run_with(alloc, flash, reader, writer, &mut Silent)
}

/// Runs a script as `run_on` does, and tells a sink of each event and each line.
pub fn run_with<R: Read, W: Write, S: Sink>(
    alloc: Global,
    flash: SimFlash,
    reader: &mut R,
    writer: &mut W,
    sink: &mut S,
) -> Result<SimFlash, RunError> {
    let text = match read_text(alloc, reader) {
        Ok(text) => text,
        Err(error) => return Err(print_fault(error.into(), writer)),
    };
    let lines = match lines_of(alloc, flash.pages(), text.as_slice()) {
        Ok(lines) => lines,
        Err(error) => return Err(print_fault(error, writer)),
    };
    run_lines(alloc, flash, lines.as_slice(), writer, sink)
}

/// Prints the line of a fault. The answer is the fault, or `Output` where the writer fails or takes
/// no byte. `PageCount` and `Output` have no line.
pub fn print_fault<W: Write>(error: RunError, writer: &mut W) -> RunError {
    tell(&mut Printer::new(writer), error)
}

/// Runs the lines of a script on a flash, and gives the writer what they print. The answer is the
/// flash after them.
fn run_lines<W: Write, S: Sink>(
    alloc: Global,
    flash: SimFlash,
    lines: &[Line<'_>],
    writer: &mut W,
    sink: &mut S,
) -> Result<SimFlash, RunError> {
    let mut printer = Printer::new(writer);
    let after = match perform(alloc, flash, lines, &mut printer, sink) {
        Ok(after) => after,
        Err(error) => return Err(tell(&mut printer, error)),
    };
    match printer.finish() {
        Ok(()) => Ok(after),
        Err(_) => Err(RunError::Output),
    }
}

/// Prints the line of a fault, and gives the writer all that was printed. The answer is the fault,
/// or `Output`.
fn tell<W: Write>(printer: &mut Printer<'_, W>, error: RunError) -> RunError {
    if error == RunError::Output || printer.print(&FaultLine(error)).is_err() {
        return RunError::Output;
    }
    if printer.finish().is_err() {
        return RunError::Output;
    }
    error
}

/// What the lines of a script say.
fn lines_of(alloc: Global, pages: usize, text: &[u8]) -> Result<crate::rattle::Vec<Line<'_>>, RunError> {
    match read_lines(alloc, pages, text) {
        Ok(lines) => Ok(lines),
        Err(ScriptError::Line { line, fault }) => Err(RunError::Line { line, fault }),
        Err(ScriptError::Memory) => Err(RunError::Memory),
    }
}

/// Runs the lines of a script on a flash. The answer is the flash after them.
fn perform<W: Write, S: Sink>(
    alloc: Global,
    flash: SimFlash,
    lines: &[Line<'_>],
    printer: &mut Printer<'_, W>,
    sink: &mut S,
) -> Result<SimFlash, RunError> {
    let mut world = world_on(alloc, flash)?;
    let answers = &mut crate::rattle::vec::new(alloc);
    let ended = run_each(&mut world, lines, answers, &mut Spare::new(), printer, sink);
    let after = world.into_flash();
    ended.map(|()| after)
}

/// Runs the lines of a script on a device that was just started.
fn run_each<W: Write, S: Sink>(
    world: &mut World,
    lines: &[Line<'_>],
    answers: &mut crate::rattle::Vec<Answer>,
    spare: &mut Spare,
    printer: &mut Printer<'_, W>,
    sink: &mut S,
) -> Result<(), RunError> {
    for line in lines {
        let Ok(outcome) = run_line(world, &line.statement, answers, spare, sink) else {
            return Err(RunError::Memory);
        };
        let shown = PrintedLine {
            number: line.number,
            outcome: &outcome,
        };
        let Ok(()) = put(printer, &shown, sink.hears()) else {
            return Err(RunError::Output);
        };
        if sink.hears() {
            sink.line(line, &outcome, world);
        }
    }
    Ok(())
}

/// Prints a line, and gives it to the writer at once where it is heard.
fn put<W: Write>(
    printer: &mut Printer<'_, W>,
    line: &PrintedLine<'_>,
    is_heard: bool,
) -> Result<(), WriteError> {
    printer.print(line)?;
    if is_heard {
        printer.finish()?;
    }
    Ok(())
}

/// A device that starts on a flash; `Memory` where it finds no room.
fn world_on(alloc: Global, flash: SimFlash) -> Result<World, RunError> {
    World::new(alloc, flash).map_err(|_| RunError::Memory)
}

/// Runs the events of a line. The outcome is what the line prints.
fn run_line<S: Sink>(
    world: &mut World,
    statement: &Statement<'_>,
    answers: &mut crate::rattle::Vec<Answer>,
    spare: &mut Spare,
    sink: &mut S,
) -> Result<Outcome, AllocError> {
    match statement {
        Statement::One(action) => act(world, action, answers, spare, sink),
        Statement::Scans { count, scan } => {
            let answer = repeat(world, *scan, *count, answers, spare, sink)?;
            Ok(Outcome::Answered(answer))
        }
        Statement::Set { layer, key, code } => {
            let answer = set(world, [*layer, *key], *code, answers, spare, sink)?;
            Ok(Outcome::Answered(answer))
        }
        Statement::Fetch => fetch(world, answers, spare, sink),
    }
}

/// Runs a line of one event.
fn act<S: Sink>(
    world: &mut World,
    action: &Action<'_>,
    answers: &mut crate::rattle::Vec<Answer>,
    spare: &mut Spare,
    sink: &mut S,
) -> Result<Outcome, AllocError> {
    let answer = take(world, event_of(action, spare), answers, sink)?;
    Ok(Outcome::Answered(answer))
}

/// Takes one event. `AllocError` where there was no memory for its answer, or for the host, which
/// then took the event all the same.
pub(crate) fn take<S: Sink>(
    world: &mut World,
    event: &Event,
    answers: &mut crate::rattle::Vec<Answer>,
    sink: &mut S,
) -> Result<Answer, AllocError> {
    pass(world, event, answers, sink)?;
    answers.pop().ok_or(AllocError)
}

/// Takes one event, and leaves its answer alone in the list.
fn pass<S: Sink>(
    world: &mut World,
    event: &Event,
    answers: &mut crate::rattle::Vec<Answer>,
    sink: &mut S,
) -> Result<(), AllocError> {
    answers.clear();
    world.run(slice::from_ref(event), answers)?;
    tell_step(sink, event, answers.as_slice(), world);
    Ok(())
}

/// Takes a scan `count` times. The answer is the last one.
fn repeat<S: Sink>(
    world: &mut World,
    scan: Scan,
    count: NonZeroU16,
    answers: &mut crate::rattle::Vec<Answer>,
    spare: &mut Spare,
    sink: &mut S,
) -> Result<Answer, AllocError> {
    let event = spare.scan(scan);
    for _again in 1..count.get() {
        pass(world, event, answers, sink)?;
    }
    take(world, event, answers, sink)
}

/// Sets an entry by a feature report, and takes the steps of its flash work. The answer is that
/// of the packet that ended the transfer, `Ack` for a status stage that succeeded.
fn set<S: Sink>(
    world: &mut World,
    place: [u8; 2],
    code: u16,
    answers: &mut crate::rattle::Vec<Answer>,
    spare: &mut Spare,
    sink: &mut S,
) -> Result<Answer, AllocError> {
    // A SETUP packet is always acknowledged.
    open(world, SET_FEATURE, answers, spare, sink)?;
    let reported = send(world, command(place, code), answers, spare, sink)?;
    if !is_ack(&reported) {
        return Ok(reported);
    }
    work_off(world, answers, spare, sink)?;
    let status = ask(world, answers, spare, sink)?;
    if is_success(&status) {
        return Ok(Answer::Ack);
    }
    Ok(status)
}

/// Takes a SETUP packet.
pub(crate) fn open<S: Sink>(
    world: &mut World,
    packet: [u8; 8],
    answers: &mut crate::rattle::Vec<Answer>,
    spare: &mut Spare,
    sink: &mut S,
) -> Result<Answer, AllocError> {
    take(world, spare.setup(packet), answers, sink)
}

/// Takes an OUT packet.
pub(crate) fn send<S: Sink>(
    world: &mut World,
    packet: ArrayVec<u8, 8>,
    answers: &mut crate::rattle::Vec<Answer>,
    spare: &mut Spare,
    sink: &mut S,
) -> Result<Answer, AllocError> {
    take(world, spare.out_packet(packet), answers, sink)
}

/// Takes an IN packet.
pub(crate) fn ask<S: Sink>(
    world: &mut World,
    answers: &mut crate::rattle::Vec<Answer>,
    spare: &Spare,
    sink: &mut S,
) -> Result<Answer, AllocError> {
    take(world, spare.in_packet(), answers, sink)
}

/// Takes a step of the flash work.
fn work<S: Sink>(
    world: &mut World,
    answers: &mut crate::rattle::Vec<Answer>,
    spare: &Spare,
    sink: &mut S,
) -> Result<Answer, AllocError> {
    take(world, spare.work(), answers, sink)
}

pub(crate) fn is_ack(answer: &Answer) -> bool {
    matches!(answer, Answer::Ack)
}

/// Whether a status stage succeeded: it is the empty packet then.
fn is_success(answer: &Answer) -> bool {
    match answer {
        Answer::Packet(bytes) => bytes.is_empty(),
        _ => false,
    }
}

/// Whether a step of the flash work needs another one.
fn needs_more(answer: &Answer) -> bool {
    matches!(answer, Answer::Worked(Work::Working))
}

/// Takes steps of the flash work until one needs no more.
fn work_off<S: Sink>(
    world: &mut World,
    answers: &mut crate::rattle::Vec<Answer>,
    spare: &Spare,
    sink: &mut S,
) -> Result<(), AllocError> {
    for _step in 0..MOST_STEPS {
        let answer = work(world, answers, spare, sink)?;
        if !needs_more(&answer) {
            return Ok(());
        }
    }
    Ok(())
}

/// The feature report that sets an entry to a code.
fn command(place: [u8; 2], code: u16) -> ArrayVec<u8, 8> {
    let [layer, key] = place;
    let [low, high] = code.to_le_bytes();
    let mut packet = ArrayVec::from([0x03, 0x01, layer, key, low, high, 0, 0]);
    packet.truncate(6);
    packet
}
