// Exported from crates/kbsim/src/print.rt by bin/export-rust. Edit that file instead.
//! Answers and faults as lines.

use crate::parts::kbsim::outcome::Outcome;
use crate::parts::kbsim::{Answer, LineFault, Reading, RunError, Work};
use core::fmt;
use crate::parts::text_io::{HexDigits, HexWord};

/// The line of an outcome: the number of the script's line, and the outcome.
pub(crate) struct PrintedLine<'a> {
    pub(crate) number: usize,
    pub(crate) outcome: &'a Outcome,
}

impl fmt::Display for PrintedLine<'_> {
    fn fmt(&self, f: &mut fmt::Formatter<'_>) -> fmt::Result {
        let number = self.number;
        let shown = ShownOutcome(self.outcome);
        writeln!(f, "{number} {shown}")
    }
}

/// The line of a fault; nothing where it has none.
pub(crate) struct FaultLine(pub(crate) RunError);

impl fmt::Display for FaultLine {
    fn fmt(&self, f: &mut fmt::Formatter<'_>) -> fmt::Result {
        match self.0 {
            RunError::PageCount | RunError::Output => Ok(()),
            RunError::Line { line, fault } => {
                let name = name_of(fault);
                writeln!(f, "fault line {line}: {name}")
            }
            RunError::TooLong => writeln!(f, "fault too long"),
            RunError::Input => writeln!(f, "fault input"),
            RunError::Image => writeln!(f, "fault image"),
            RunError::Memory => writeln!(f, "fault memory"),
        }
    }
}

fn name_of(fault: LineFault) -> &'static str {
    match fault {
        LineFault::UnknownWord => "unknown word",
        LineFault::WrongWords => "wrong words",
        LineFault::BadNumber => "bad number",
        LineFault::BadHex => "bad hex",
    }
}

/// What a line came to, as scripts show it.
struct ShownOutcome<'a>(&'a Outcome);

impl fmt::Display for ShownOutcome<'_> {
    fn fmt(&self, f: &mut fmt::Formatter<'_>) -> fmt::Result {
        match self.0 {
            Outcome::Answered(answer) => {
                let shown = Shown(answer);
                write!(f, "{shown}")
            }
            Outcome::Fetched(count) => {
                let count = *count;
                write!(f, "fetched {count}")
            }
        }
    }
}

/// An answer as scripts show it.
struct Shown<'a>(&'a Answer);

impl fmt::Display for Shown<'_> {
    fn fmt(&self, f: &mut fmt::Formatter<'_>) -> fmt::Result {
        match self.0 {
            Answer::Done => write!(f, "ok"),
            Answer::Sent { bytes, reading } => {
                let digits = HexDigits(bytes.as_slice());
                let read = Read(reading);
                write!(f, "report {digits} {read}")
            }
            Answer::Ack => write!(f, "ack"),
            Answer::Nak => write!(f, "nak"),
            Answer::Packet(bytes) if bytes.is_empty() => write!(f, "data -"),
            Answer::Packet(bytes) => {
                let digits = HexDigits(bytes.as_slice());
                write!(f, "data {digits}")
            }
            Answer::Stall(why) => {
                let number = why.number();
                write!(f, "stall {number}")
            }
            Answer::Worked(work) => write!(f, "{}", outcome_of(*work)),
            Answer::Restarted => write!(f, "restart"),
            Answer::EntryIs(code) => {
                let bytes = code.bits().to_be_bytes();
                let digits = HexDigits(bytes.as_slice());
                write!(f, "{digits}")
            }
            Answer::SlotIs(bytes) => {
                let digits = HexDigits(bytes.as_slice());
                write!(f, "{digits}")
            }
            Answer::NoSlot => write!(f, "no slot"),
            Answer::LedsAre(leds) => {
                let bytes = [*leds];
                let digits = HexDigits(bytes.as_slice());
                write!(f, "{digits}")
            }
        }
    }
}

/// What the host makes of a report, as scripts show it.
struct Read<'a>(&'a Reading);

impl fmt::Display for Read<'_> {
    fn fmt(&self, f: &mut fmt::Formatter<'_>) -> fmt::Result {
        match self.0 {
            Reading::Unread => write!(f, "unread"),
            Reading::NoMemory => write!(f, "no memory"),
            Reading::Usages(usages) if usages.as_slice().is_empty() => write!(f, "read none"),
            Reading::Usages(usages) => {
                let usages = Usages(usages.as_slice());
                write!(f, "read{usages}")
            }
        }
    }
}

/// Usages as eight hex digits, each after a space.
struct Usages<'a>(&'a [u32]);

impl fmt::Display for Usages<'_> {
    fn fmt(&self, f: &mut fmt::Formatter<'_>) -> fmt::Result {
        for usage in self.0 {
            let usage = HexWord(*usage);
            write!(f, " {usage}")?;
        }
        Ok(())
    }
}

fn outcome_of(work: Work) -> &'static str {
    match work {
        Work::Idle => "idle",
        Work::Working => "working",
        Work::Settled => "settled",
        Work::Failed => "failed",
    }
}
