// Exported from crates/lenient_parse/src/lenient.rt by bin/export-rust. Edit that file instead.
//! The text that is parsed in place of another one.

use crate::parts::lenient_parse::output::Output;
use crate::parts::lenient_parse::parts::{part_from, whole_items};
use crate::parts::lenient_parse::state::State;
use crate::parts::descriptor_parse::{Item, ParseError};
use crate::rattle::alloc::{AllocError, Global};

/// The greatest length of a text.
const MAX_LEN: usize = 4096;

/// The text that the strict reader parses in place of one with faults that the lenient mode passes over.
#[derive(Debug)]
pub struct Lenient {
    text: crate::rattle::Vec<u8>,
    origins: crate::rattle::Vec<usize>,
    passed: crate::rattle::Vec<ParseError>,
    len: usize,
}

impl Lenient {
    /// Returns the text for the strict reader. It may have more than 4,096 bytes, which it then refuses.
    pub fn text(&self) -> &[u8] {
        &self.text
    }

    /// Returns the faults that were passed over, in the order of the text, with their offsets in it.
    pub fn passed(&self) -> &[ParseError] {
        &self.passed
    }

    /// Returns where an offset of the new text stands in the old one: that of its item, or its length past the end.
    pub fn origin(&self, offset: usize) -> usize {
        match self.origins.get(offset) {
            Some(origin) => *origin,
            None => self.len,
        }
    }

    /// Returns the faults alone.
    pub fn into_passed(self) -> crate::rattle::Vec<ParseError> {
        let Lenient {
            passed,
            text: _,
            origins: _,
            len: _,
        } = self;
        passed
    }
}

/// Makes the text that the strict reader parses in place of one of at most 4,096 bytes.
///
/// `None` where no fault is passed over, and the strict reader answers for the text itself, as for a longer one.
pub fn rewritten(alloc: Global, text: &[u8]) -> Result<Option<Lenient>, AllocError> {
    if text.len() > MAX_LEN {
        return Ok(None);
    }
    let (items, end) = whole_items(alloc, text)?;
    let mut output = rewrite(alloc, &items)?;
    if is_strict(&output) {
        return Ok(None);
    }
    output.put(end, part_from(text, end))?;
    let Output {
        text: written,
        origins,
        passed,
    } = output;
    Ok(Some(Lenient {
        text: written,
        origins,
        passed,
        len: text.len(),
    }))
}

/// What stands in place of items, and the faults that are passed over in them.
fn rewrite(alloc: Global, items: &[Item<'_>]) -> Result<Output, AllocError> {
    let mut output = Output::new(alloc);
    let mut state = State::new(alloc, items);
    let mut at = 0;
    while at < items.len() {
        let (_, rest) = items.split_at(at);
        step(&mut output, &mut state, rest)?;
        at += 1;
    }
    Ok(output)
}

/// Whether no fault is passed over.
fn is_strict(output: &Output) -> bool {
    match output.passed.first() {
        Some(_) => false,
        None => true,
    }
}

/// Takes the first of the items that are left.
fn step(output: &mut Output, state: &mut State, rest: &[Item<'_>]) -> Result<(), AllocError> {
    let Some((item, more)) = rest.split_first() else {
        return Ok(());
    };
    output.take(state, item, more)?;
    state.take(item, more)?;
    Ok(())
}
