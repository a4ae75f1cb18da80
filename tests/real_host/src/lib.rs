// SPDX-License-Identifier: MIT OR Apache-2.0
//! A keyboard on real hosts: what it does on a bus, the one in memory, what the hands do, and three ways to a host.
#![forbid(unsafe_code)]

pub mod class;
pub mod device;
pub mod file_flash;
pub mod function;
pub mod hands;
mod kept;
mod on_bus;
mod program;
mod run;
mod socket;
pub mod usbip;
pub mod usbredir;

pub use on_bus::{About, Ended, OnBus, Polled, plug, scan_of};
pub use program::{Given, run};
pub use run::named;

use std::fmt::Display;
use std::io::{Error, Result, Write};

/// Prints a line. What was asked for has no other place, so that the program ends where it can't.
pub fn print(line: impl Display) -> Result<()> {
    let mut out = std::io::stdout();
    let printed = writeln!(out, "{line}").and_then(|()| out.flush());
    printed.map_err(|error| Error::new(error.kind(), format!("standard output: {error}")))
}

/// Says a line on standard error, where that can be written.
pub fn tell(line: impl Display) {
    let _ = writeln!(std::io::stderr(), "real_host: {line}");
}
