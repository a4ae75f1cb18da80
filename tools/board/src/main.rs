// SPDX-License-Identifier: MIT OR Apache-2.0
//! board FIRMWARE PLUGIN WHAT ..: cuts the power of a chip in QEMU, and says what was lost. What it does is one of:
//!
//! - `session`: a session with one cut, told line by line
//! - `starved`: a session while QEMU has no processor for some seconds, which is no silence of the chip
//! - `armed`: what endpoint 0 of a firmware with buffers holds behind a SETUP packet: nothing
//! - `instructions STRIDE`: a cut at each so many instructions of a session with one command; `FROM TO` behind it: of these alone
//! - `operations STRIDE`: a cut in each so many operations of a compaction with an erase, each torn in five ways; all of the erase's;
//!   `FROM TO` in place of the stride: in each of these
//! - `words TEARS SEED`: so many tears of each word of a record that leave few bits undone, in three ways
//! - `random CUTS SEED`: so many sessions with one cut each
//! - `layout CUTS SEED`: the same of a firmware whose default codes are those of rust/tests/src/other.rs
//! - `starts LIVES SEED`: so many commands that are cut inside an operation, with cuts inside the starts behind it
//! - `lengths`: the instructions of the one session, and the operations of the other
//! - `measure`: the most instructions that calls take, a row each, and the deepest stack
//! - `host WORDS ..`: the chip in place of the keyboard of tests/real_host, with the words of its program

mod chip;
mod ecc;
mod elf;
mod every;
mod host;
mod machine;
mod measure;
mod model;
mod on_bus;
#[path = "../../../rust/tests/src/other.rs"]
mod other;
mod random;
mod session;
mod silence;
mod starts;

use chip::{Chip, Lost};
use other::Other;
use std::path::{Path, PathBuf};
use std::process::ExitCode;
use wuzhikar::Layout;

/// Where a chip comes from.
pub struct Shop {
    program: Vec<u8>,
    plugin: PathBuf,
    folder: PathBuf,
}

impl Shop {
    pub fn chip(&self) -> std::io::Result<Chip> {
        Chip::new(&self.program, &self.plugin, &self.folder)
    }
}

fn main() -> Result<ExitCode, Box<dyn std::error::Error>> {
    let words: Vec<String> = std::env::args().skip(1).collect();
    let [firmware, plugin, what, rest @ ..] = &words[..] else {
        return Err("board FIRMWARE PLUGIN WHAT ..: src/main.rs says what it does".into());
    };
    let folder = std::env::temp_dir().join(format!("board-{}", std::process::id()));
    let program = elf::flash(&std::fs::read(firmware)?).ok_or("FIRMWARE is no ELF file of a 32-bit chip")?;
    let shop = Shop { program, plugin: Path::new(plugin).canonicalize()?, folder };
    if what == "host" {
        return Ok(on_bus::run(&shop, rest));
    }
    let numbers = rest.iter().map(|word| word.parse()).collect::<Result<Vec<u64>, _>>()?;
    let result = match (&what[..], &numbers[..]) {
        ("session", []) => session::run(&shop),
        ("measure", []) => measure::run(&shop),
        ("starved", []) => session::starved(&shop),
        ("armed", []) => session::armed(&shop),
        ("lengths", []) => every::lengths(&shop),
        ("instructions", [stride]) => every::instructions(&shop, *stride),
        ("instructions", [stride, from, to]) => every::instructions_of(&shop, *stride, *from, *to),
        ("operations", [stride]) => every::operations(&shop, *stride),
        ("operations", [from, to]) => every::operations_of(&shop, *from, *to),
        ("words", [tears, seed]) => every::words(&shop, *tears, *seed),
        ("random", [cuts, seed]) => random::run(&shop, *cuts, *seed, &model::default_keymap()),
        ("starts", [lives, seed]) => starts::run(&shop, *lives, *seed),
        ("layout", [cuts, seed]) => random::run(&shop, *cuts, *seed, Other::CODES),
        _ => return Err("these are not the words of what it does: src/main.rs has them".into()),
    };
    result.map(|()| ExitCode::SUCCESS).map_err(|lost| match lost {
        Lost::Dead(why) => why.into(),
        Lost::Cut => "the power went where no cut was ordered".into(),
        Lost::Io(error) => format!("QEMU: {error}").into(),
    })
}
