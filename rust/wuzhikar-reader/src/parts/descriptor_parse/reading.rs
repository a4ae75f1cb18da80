// Exported from crates/descriptor_parse/src/reading.rt by bin/export-rust. Edit that file instead.
//! A text that comes in pieces, item by item.

use crate::parts::descriptor_parse::descriptor::Descriptor;
use crate::parts::descriptor_parse::fault::{ParseError, ParseFault};
use crate::parts::descriptor_parse::items::{Item, cut, size_of_front};
use crate::parts::descriptor_parse::state::State;
use arrayvec::ArrayVec;
use crate::rattle::alloc::Global;

/// The most bytes of a text.
const MAX_LEN: usize = 4096;

/// The most bytes of an item: the three before the data of a long one, and 255.
pub(crate) const MAX_ITEM: usize = 258;

/// What the whole items so far leave to the next one, and the bytes of an item that is not whole yet.
pub(crate) struct Reading {
    pub(crate) state: State,
    pub(crate) part: ArrayVec<u8, MAX_ITEM>,
    /// Where the next item begins.
    pub(crate) offset: usize,
}

impl Reading {
    pub(crate) fn new(alloc: Global) -> Reading {
        Reading {
            state: State::new(alloc),
            part: ArrayVec::new(),
            offset: 0,
        }
    }

    /// Reads a piece of the text: each item that it makes whole, and what is left is kept.
    pub(crate) fn read(&mut self, piece: &[u8]) -> Result<(), ParseError> {
        if self.part.is_empty() {
            return self.read_rest(piece);
        }
        self.read_kept(piece)
    }

    /// Reads a piece where bytes of an item may be kept.
    // Not inlined, so that the other pieces cost less.
    #[inline(never)]
    fn read_kept(&mut self, piece: &[u8]) -> Result<(), ParseError> {
        let rest = fill(&mut self.part, piece);
        let Some((item, _, _)) = cut(self.offset, &self.part) else {
            return Ok(());
        };
        self.offset = take_item(&mut self.state, &item, self.part.len())?;
        self.part.clear();
        self.read_rest(rest)
    }

    /// Reads a piece where no bytes of an item are kept.
    fn read_rest(&mut self, piece: &[u8]) -> Result<(), ParseError> {
        let (offset, left) = read_items(&mut self.state, self.offset, piece)?;
        self.offset = offset;
        keep(&mut self.part, left);
        Ok(())
    }
}

impl Reading {
    /// Ends the text: its descriptor, or that it ends too early.
    pub(crate) fn finish(self) -> Result<Descriptor, ParseError> {
        let Reading {
            state,
            part,
            offset,
        } = self;
        end(state, &part, offset)
    }
}

/// Ends a text of which these bytes at an offset are left, which make no item.
pub(crate) fn end(state: State, left: &[u8], offset: usize) -> Result<Descriptor, ParseError> {
    if let Some(error) = end_error(&state, left, offset) {
        return Err(error);
    }
    Ok(Descriptor::new(state.into_reports()))
}

/// The error of a text of which these bytes at an offset are left, which make no item; `None` if it may end there.
#[inline(always)]
pub(crate) fn end_error(state: &State, left: &[u8], offset: usize) -> Option<ParseError> {
    if has_bytes(left) {
        return Some(ParseError {
            fault: ParseFault::Truncated,
            offset,
        });
    }
    if state.collections > 0 {
        return Some(ParseError {
            fault: ParseFault::CollectionOpen,
            offset,
        });
    }
    None
}

/// Whether there are bytes of an item that is not whole.
fn has_bytes(part: &[u8]) -> bool {
    part.len() > 0
}

/// Moves bytes from a piece to those of an item, until that is whole: what is left of the piece.
fn fill<'a>(part: &mut ArrayVec<u8, MAX_ITEM>, piece: &'a [u8]) -> &'a [u8] {
    let mut rest = piece;
    while part.len() < size_of_front(part) {
        let Some((byte, after)) = rest.split_first() else {
            return rest;
        };
        part.push_in(*byte);
        rest = after;
    }
    rest
}

/// Keeps the bytes of an item that is not whole.
fn keep(part: &mut ArrayVec<u8, MAX_ITEM>, bytes: &[u8]) {
    if !bytes.is_empty() {
        let _ = part.try_extend_from_slice(bytes);
    }
}

/// Reads the whole items at the front of a text: the offset that they go up to, and what is left.
pub(crate) fn read_items<'a>(
    state: &mut State,
    offset: usize,
    piece: &'a [u8],
) -> Result<(usize, &'a [u8]), ParseError> {
    let mut at = offset;
    let mut rest = piece;
    while let Some((item, after, size)) = cut(at, rest) {
        at = take_item(state, &item, size)?;
        rest = after;
    }
    Ok((at, rest))
}

/// Judges and takes a whole item of so many bytes: the offset after it.
///
/// An item that reaches past the greatest length of a text is checked, and never taken.
#[inline(always)]
pub(crate) fn take_item(
    state: &mut State,
    item: &Item<'_>,
    size: usize,
) -> Result<usize, ParseError> {
    let after = item.offset.wrapping_add(size);
    if after > MAX_LEN {
        return Err(check_last(state, item.offset, item.prefix, item.bytes));
    }
    match state.step(item) {
        Ok(()) => Ok(after),
        Err(fault) => Err(ParseError {
            fault,
            offset: item.offset,
        }),
    }
}

const TOO_LONG: ParseError = ParseError {
    fault: ParseFault::TooLong,
    offset: MAX_LEN,
};

/// The error of a text with an item that reaches past its greatest length: that item's fault, or that the text is too
/// long.
#[inline(never)]
fn check_last(state: &State, offset: usize, prefix: u8, bytes: &[u8]) -> ParseError {
    let item = Item {
        offset,
        prefix,
        bytes,
    };
    match state.check(&item) {
        Some(fault) => ParseError { fault, offset },
        None => TOO_LONG,
    }
}

#[allow(unused_imports)]
use crate::rattle::memory::*;
