//! The program: its command line, its files and its exit status. Written by hand: tested, not proved.

mod details;
mod ends;
mod files;
mod items;
mod json;
mod parse;
mod pieces;
mod read;
mod report_json;
mod run;
mod save;
mod sentences;
mod texts;
mod usbmon;
mod words;
mod write;

use clap::ArgMatches;
use ends::Ended;
use std::env::args_os;
use std::iter::once;
use std::process::ExitCode;

/// Does what the command line asks for.
pub fn status() -> ExitCode {
    // (Its name stands in the texts, and not that of the file that it is kept in.)
    let words = once("kbsim".into()).chain(args_os().skip(1));
    let ended = words::kbsim().try_get_matches_from(words).map_err(Ended::from).and_then(|given| act(&given));
    ended.unwrap_or_else(Ended::told)
}

fn act(given: &ArgMatches) -> Result<ExitCode, Ended> {
    match given.subcommand() {
        Some(("run", given)) => run::run(given)?,
        Some(("parse", given)) => parse::parse(given)?,
        Some(("read", given)) => return read::read(given),
        Some(("write", given)) => write::write(given)?,
        _ => parse::describe()?,
    }
    Ok(ExitCode::SUCCESS)
}
