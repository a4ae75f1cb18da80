// Exported from crates/layers/src/defaults.rt by bin/export-rust. Edit that file instead.
//! The codes that the entries have at first, and after a reset.

use crate::parts::layers::Code;
use crate::parts::layers::code::{ENTRIES, KEYS};
// It names the defaults in a type that holds none of them.
pub(crate) use core::marker::PhantomData;

/// The default codes of a keymap: [`Standard`], or those that a maker chose.
pub trait Defaults {
    /// The default code of the entry at a place, 96 times the layer plus the key.
    fn code_at(place: usize) -> Code;

    /// Gives the entries from `start` up to `end` their default codes.
    fn reset(codes: &mut [Code], start: usize, end: usize);
}

/// On layer 0 the key usages 04h to 5Bh and, from key 88 on, the modifiers E0h to E7h; the other
/// layers are transparent.
#[derive(Clone, Copy, Debug, PartialEq, Eq)]
pub struct Standard {}

impl Defaults for Standard {
    fn code_at(place: usize) -> Code {
        Code::standard_at(place)
    }

    fn reset(codes: &mut [Code], start: usize, end: usize) {
        let middle = end_of_layer_0(start, end);
        reset_layer_0(codes, start, middle);
        make_transparent(codes, middle, end);
    }
}

/// Where the entries of layer 0, the only ones that are not transparent by default, end between two
/// places.
fn end_of_layer_0(start: usize, end: usize) -> usize {
    if end <= KEYS {
        end
    } else if start <= KEYS {
        KEYS
    } else {
        start
    }
}

/// `reset` of the standard ones, for entries of layer 0.
fn reset_layer_0(codes: &mut [Code], start: usize, end: usize) {
    for place in start..end {
        codes[place] = Code::standard_at(place);
    }
}

/// Makes the entries from `start` up to `end` transparent.
fn make_transparent(codes: &mut [Code], start: usize, end: usize) {
    for place in start..end {
        codes[place] = Code::TRANSPARENT;
    }
}
