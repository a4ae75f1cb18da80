// Exported from crates/settings/src/lookup.rt by bin/export-rust. Edit that file instead.
//! Values looked up in the flash.

use crate::parts::settings::change::{Change, ROOM, Value};
use crate::parts::settings::words::{head_of, is_data, is_known, size, word_bytes};
use crate::parts::flash_model::NorFlash;
use crate::parts::page_turnover::Log;

/// How many ids there are.
pub const IDS: u32 = 1 << 16;

/// The slots of a page that hold words.
pub const PAGE_WORDS: usize = 511;

/// A value whose words have not all come: how many bytes it has, and those so far.
#[derive(Clone, Copy)]
pub struct Partial {
    pub len: u8,
    pub got: u8,
    pub bytes: [u8; ROOM],
}

/// What the words so far say of an id.
pub struct Reading {
    /// Its value.
    pub value: Option<Value>,
    /// The value that the next words go on with.
    pub partial: Option<Partial>,
}

/// The value of an id in the flash.
pub fn value_in<F: NorFlash>(log: &Log, flash: &F, id: u16) -> Option<Value> {
    let mut reading = ended(None);
    for word in log.words(flash) {
        reading = after_word(reading, id, word);
    }
    reading.value
}

/// What is known of an id after one word more.
fn after_word(reading: Reading, id: u16, word: u32) -> Reading {
    if is_data(word) {
        return match reading.partial {
            Some(partial) => with_data(reading.value, partial, word),
            None => reading,
        };
    }
    match head_of(word) {
        Some(head) => {
            if head.id == id {
                begun(reading.value, head.len)
            } else {
                ended(reading.value)
            }
        }
        None => ended(reading.value),
    }
}

/// No value goes on.
fn ended(value: Option<Value>) -> Reading {
    Reading {
        value,
        partial: None,
    }
}

/// A change of the id begins.
fn begun(value: Option<Value>, len: Option<u8>) -> Reading {
    match len {
        None => ended(None),
        Some(len) => {
            if len == 0 {
                return ended(Some(Value::of_bytes(0, [0; ROOM])));
            }
            Reading {
                value,
                partial: Some(Partial {
                    len,
                    got: 0,
                    bytes: [0; ROOM],
                }),
            }
        }
    }
}

/// A value goes on, and may be whole.
fn with_data(value: Option<Value>, partial: Partial, word: u32) -> Reading {
    let next = with_bytes(partial, word);
    if next.got >= next.len {
        return ended(Some(Value::of_bytes(next.len, next.bytes)));
    }
    Reading {
        value,
        partial: Some(next),
    }
}

/// Three bytes more of a value.
fn with_bytes(partial: Partial, word: u32) -> Partial {
    let got = partial.got as usize;
    let [a, b, c] = word_bytes(word);
    let mut bytes = partial.bytes;
    bytes[got] = a;
    bytes[got + 1] = b;
    bytes[got + 2] = c;
    Partial {
        len: partial.len,
        got: partial.got + 3,
        bytes,
    }
}

/// The value of an id after some changes more.
pub fn value_after<F: NorFlash>(log: &Log, flash: &F, changes: &[Change], id: u16) -> Option<Value> {
    let mut value = value_in(log, flash, id);
    let mut rest = changes;
    while let [change, later @ ..] = rest {
        if change.id == id {
            value = copied(&change.value);
        }
        rest = later;
    }
    value
}

/// The same value again, if there is one.
fn copied(value: &Option<Value>) -> Option<Value> {
    match value {
        Some(value) => Some(value.copied()),
        None => None,
    }
}

/// The first id from one on that has a value after some changes, with it.
pub fn next_value<F: NorFlash>(
    log: &Log,
    flash: &F,
    changes: &[Change],
    from: u32,
) -> Option<Change> {
    let mut id = next_named(log, flash, changes, from);
    while id < IDS {
        if let Some(value) = value_after(log, flash, changes, id as u16) {
            return Some(Change {
                id: id as u16,
                value: Some(value),
            });
        }
        id = next_named(log, flash, changes, id + 1);
    }
    None
}

/// The first id from one on that a word or a change names, and 65,536 where none does.
fn next_named<F: NorFlash>(log: &Log, flash: &F, changes: &[Change], from: u32) -> u32 {
    named_in_changes(changes, from, named_in_words(log, flash, from))
}

/// The first id from one on that a word names, and 65,536 where none does.
fn named_in_words<F: NorFlash>(log: &Log, flash: &F, from: u32) -> u32 {
    let mut best = IDS;
    for word in log.words(flash) {
        if let Some(head) = head_of(word) {
            best = nearer(best, from, head.id);
        }
    }
    best
}

/// The best so far, or the first id from one on that a change names where that is lower.
fn named_in_changes(changes: &[Change], from: u32, best: u32) -> u32 {
    let mut best = best;
    let mut rest = changes;
    while let [change, later @ ..] = rest {
        best = nearer(best, from, change.id);
        rest = later;
    }
    best
}

/// The lower one of an id and the best so far, where it is not below the first that counts.
fn nearer(best: u32, from: u32, id: u16) -> u32 {
    let id = u32::from(id);
    if id >= from && id < best { id } else { best }
}

/// How many words the values take after some changes, and more than 511 where they do not fit.
pub fn words_alive<F: NorFlash>(log: &Log, flash: &F, changes: &[Change]) -> u16 {
    let mut sum = 0;
    let mut from = 0;
    while from < IDS && sum <= PAGE_WORDS as u16 {
        match next_value(log, flash, changes, from) {
            Some(change) => {
                sum += size(&change) as u16;
                from = u32::from(change.id) + 1;
            }
            None => return sum,
        }
    }
    sum
}

/// Whether each word in the flash is one of settings.
pub fn all_known<F: NorFlash>(log: &Log, flash: &F) -> bool {
    for word in log.words(flash) {
        if !is_known(word) {
            return false;
        }
    }
    true
}
