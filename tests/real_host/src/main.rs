// SPDX-License-Identifier: MIT OR Apache-2.0
//! The keyboard on a real host. `real_host --help` says how.
#![forbid(unsafe_code)]

use real_host::device::{Device, product};
use real_host::{Given, named};
use std::fs::File;
use std::io::{Error, Read, Result};
use std::path::Path;
use std::process::ExitCode;
use wuzhikar::SimFlash;

fn main() -> ExitCode {
    real_host::run(std::env::args_os().skip(1).collect(), keyboard)
}

/// The keyboard on its flash in memory.
fn keyboard(given: &Given) -> Result<Device> {
    let flash = match &given.image {
        Some(path) => image(path).map_err(|error| named(path.display(), error))?,
        None => SimFlash::blank(2).map_err(Error::other)?,
    };
    Ok(Device::new(flash, product(given.packet, given.serial.clone())))
}

/// The flash with the image in a file, of which one byte more than the largest image has is read at most.
fn image(path: &Path) -> Result<SimFlash> {
    let mut bytes = Vec::new();
    File::open(path)?.take(8 * 4096 + 1).read_to_end(&mut bytes)?;
    SimFlash::from_image(bytes).map_err(Error::other)
}
