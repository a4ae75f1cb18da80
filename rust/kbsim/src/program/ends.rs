//! How a command ends that was not done.

use super::files;
use kbsim::LinesError;
use std::ffi::OsString;
use std::fmt::Display;
use std::io::{self, Write};
use std::process::ExitCode;
use thiserror::Error;

/// The line of a fault that nothing given has.
const MEMORY: &str = "fault memory";

/// Why a command ends early. What is shown is what standard error says.
#[derive(Debug, Error)]
pub enum Ended {
    /// The command line is refused, or asks for help.
    #[error("{0}")]
    Words(#[from] clap::Error),
    /// A fault, whose line is still to be printed.
    #[error("{sentence}")]
    Fault { line: String, sentence: String },
    /// A file can't be opened, which is said before the line of the fault is printed.
    #[error("error: {0}")]
    Closed(String),
    /// A fault whose line stands on standard output.
    #[error("{0}")]
    Said(String),
    #[error("error: the output can't be written")]
    Output,
}

impl Ended {
    /// A fault with this line and this sentence.
    pub fn fault(line: impl Into<String>, sentence: impl Into<String>) -> Ended {
        Ended::Fault { line: line.into(), sentence: sentence.into() }
    }

    /// The end for a lack of memory.
    pub fn memory() -> Ended {
        Ended::fault(MEMORY, "out of memory")
    }

    /// Puts the name of the path in front of the sentence.
    pub fn naming(self, path: Option<&OsString>) -> Ended {
        let named = |sentence: String| format!("{}{sentence}", files::named(path));
        match self {
            Ended::Fault { line, sentence } if line != MEMORY => Ended::fault(line, named(sentence)),
            Ended::Said(sentence) => Ended::Said(named(sentence)),
            other => other,
        }
    }

    /// Adds these words to the sentence of a fault.
    pub fn adding(self, more: &str) -> Ended {
        match self {
            Ended::Fault { line, sentence } => Ended::fault(line, sentence + more),
            other => other,
        }
    }

    /// Prints the end, and returns the exit status.
    pub fn told(self) -> ExitCode {
        let printed = match &self {
            Ended::Words(error) if error.use_stderr() => {
                // (The text ends its last line itself.)
                let _ = write!(io::stderr(), "{error}");
                return ExitCode::from(2);
            }
            Ended::Words(help) => {
                return if print(help).is_ok() { ExitCode::SUCCESS } else { Ended::Output.told() };
            }
            Ended::Fault { line, .. } => print(&format_args!("{line}\n")),
            Ended::Closed(_) => {
                tell(&self);
                print(&"fault input\n")
            }
            Ended::Said(_) | Ended::Output => Ok(()),
        };
        match (printed, &self) {
            (Ok(()), Ended::Closed(_)) => {}
            // (Who has closed the pipe has read all that is wanted.)
            (Err(_), _) | (_, Ended::Output) if files::is_closed() => {}
            (Err(_), _) => tell(&Ended::Output),
            (Ok(()), ended) => tell(ended),
        }
        ExitCode::FAILURE
    }
}

fn print(text: &dyn Display) -> io::Result<()> {
    files::output()?.write_all(text.to_string().as_bytes())
}

/// Nothing but standard output is written where a fault of `io` is not told otherwise.
impl From<io::Error> for Ended {
    fn from(_: io::Error) -> Ended {
        Ended::Output
    }
}

/// Of a call that has printed the line of its fault.
impl From<LinesError> for Ended {
    fn from(error: LinesError) -> Ended {
        if error == LinesError::Output { Ended::Output } else { Ended::Said(error.to_string()) }
    }
}

/// Says a sentence on standard error; nothing where it can't be written.
pub fn tell(sentence: &dyn Display) {
    let _ = writeln!(io::stderr(), "{sentence}");
}
