// SPDX-License-Identifier: MIT OR Apache-2.0
//! Reads and sets the keymap of a real keyboard, by Linux's hidraw. `keymap --help` says how.
#![deny(unsafe_code)]

mod command;
mod file;
mod hidraw;
mod keyboard;
mod which;

use command::{Given, Ran};
use std::ffi::OsString;
use std::io::Write;
use std::process::ExitCode;

const HELP: &str = "\
keymap [--device FILE] [--id VVVV:PPPP] COMMAND

  get L K          prints the code of key K (0 to 95) on layer L (0 to 3), four hex digits
  set L K CODE     sets it; it is stored when the program ends
  reset [L]        sets layer L, or all layers, back to the default
  dump [NAME]      prints the whole keymap as a file (docs/formats.md, \"A keymap as a file\")
  load FILE        makes the keyboard's keymap that of a file: sets what differs

The keyboard is the one hidraw device with the ID 1209:0001, or that of --id; --device names its file, as /dev/hidraw0.
A device without feature report 3 of 5 bytes on page FF00h is refused, and so is a file whose device has not the ID of --id.
Codes are those of docs/formats.md, \"Codes\": 0004 is the letter a, 40e9 is volume up, 5001 is layer 1 while it is held.
";

/// Prints what was asked for.
fn print(text: &str) -> ExitCode {
    let mut out = std::io::stdout();
    match out.write_all(text.as_bytes()).and_then(|()| out.flush()) {
        Ok(()) => ExitCode::SUCCESS,
        Err(error) => {
            tell(&format!("standard output: {error}"));
            ExitCode::FAILURE
        }
    }
}

/// Says what is wrong, where that can be written.
fn tell(error: &str) {
    let _ = writeln!(std::io::stderr(), "keymap: {error}");
}

fn main() -> ExitCode {
    let words: Vec<OsString> = std::env::args_os().skip(1).collect();
    let given = match Given::read(&words) {
        Ok(Given::Help) => return print(HELP),
        Ok(Given::Run(given)) => given,
        Err(error) => {
            tell(&format!("{error}\n\n{HELP}"));
            return ExitCode::from(2);
        }
    };
    let command = given.command.with_file();
    match command.and_then(|command| command.run(&mut which::open(&hidraw::System, &given.which)?)) {
        Ok(Ran(text)) => print(&text),
        Err(error) => {
            tell(&error.to_string());
            ExitCode::FAILURE
        }
    }
}
