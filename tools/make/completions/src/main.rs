// SPDX-License-Identifier: MIT OR Apache-2.0
//! Writes the completions of kbsim for bash, zsh and fish, and its man page, into the two folders that are named. All of it is made of
//! the program's own definition.

mod man;
#[allow(dead_code)]
#[path = "../../../../rust/kbsim/src/program/words.rs"]
mod words;

use clap_complete::{Shell, generate_to};
use std::env::args_os;
use std::fs;
use std::path::PathBuf;

fn main() -> std::io::Result<()> {
    let folders: Vec<PathBuf> = args_os().skip(1).map(PathBuf::from).collect();
    let [completions, docs] = folders.as_slice() else { panic!("the folders for the completions and for the man page") };
    // (A range has no values that a shell could offer.)
    let pages = ["2", "3", "4", "5", "6", "7", "8"];
    let mut kbsim = words::kbsim().mut_subcommand("run", |run| run.mut_arg("pages", |arg| arg.value_parser(pages)));
    for shell in [Shell::Bash, Shell::Zsh, Shell::Fish] {
        generate_to(shell, &mut kbsim, "kbsim", completions)?;
    }
    fs::write(docs.join("kbsim.1"), man::page(words::kbsim()))
}
