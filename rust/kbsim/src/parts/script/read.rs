// Exported from crates/script/src/read.rt by bin/export-rust. Edit that file instead.
//! A whole script: its lines, checked.

use crate::parts::script::lines::Lines;
use crate::parts::script::statement::Statement;
use crate::parts::script::words::Words;
use crate::parts::script::{LineFault, ScriptError};
use crate::rattle::alloc::Global;

/// A line of a script that says something.
#[derive(Debug, PartialEq, Eq)]
pub struct Line<'t> {
    /// The place of the line in its script, counted from 1.
    pub number: usize,
    /// What the line says.
    pub statement: Statement<'t>,
}

/// What the lines of a script say to a device with a flash of this many pages. The caller gives at
/// most 256 pages. `Line` names the first line with a fault. `Memory` comes where a line that says
/// something finds no room, before any line with a fault.
pub fn read_lines(alloc: Global, pages: usize, text: &[u8]) -> Result<crate::rattle::Vec<Line<'_>>, ScriptError> {
    let mut said = crate::rattle::vec::new(alloc);
    push_lines(pages, text, &mut said)?;
    Ok(said)
}

/// Adds what the lines of a script say to a list that is empty.
fn push_lines<'t>(pages: usize, text: &'t [u8], said: &mut crate::rattle::Vec<Line<'t>>) -> Result<(), ScriptError> {
    let mut number = 0;
    for line in Lines::new(text) {
        number += 1;
        match read_line(pages, line) {
            Ok(None) => {}
            Ok(Some(statement)) => {
                if said.push_in(Line { number, statement }).is_err() {
                    return Err(ScriptError::Memory);
                }
            }
            Err(fault) => return Err(ScriptError::Line {
                line: number,
                fault,
            }),
        }
    }
    Ok(())
}

/// What a line says; `None` for a comment, which begins with `#`, and for a line without words.
fn read_line(pages: usize, line: &[u8]) -> Result<Option<Statement<'_>>, LineFault> {
    if line.first() == Some(&b'#') {
        return Ok(None);
    }
    Statement::read(pages, Words::new(line))
}

#[allow(unused_imports)]
use crate::rattle::memory::*;
