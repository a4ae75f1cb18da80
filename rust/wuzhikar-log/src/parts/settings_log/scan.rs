// Exported from crates/settings_log/src/scan.rt by bin/export-rust. Edit that file instead.
//! The last change in force of some ids.

use crate::parts::settings_log::operation::kind_in;
use crate::parts::settings_log::ring::counting;
use crate::parts::settings_log::words::{Head, Word, data_words};
use crate::parts::flash_model::{NorFlash, PAGE_SLOTS};

/// The slot of a head.
#[derive(Clone, Copy, Debug, PartialEq, Eq)]
pub struct Place {
    pub page: u8,
    pub slot: u16,
}

/// What is known of an id.
#[derive(Clone, Copy, Debug, PartialEq, Eq)]
pub struct Entry {
    pub id: u16,
    /// The head of its last change in force.
    pub found: Option<Place>,
    /// Its last head in a change whose words have not all come.
    pub coming: Option<Place>,
}

/// A change whose words have not all come.
#[derive(Clone, Copy)]
struct Open {
    /// How many words of its last head are to come.
    left: u16,
    /// No head is to come.
    last: bool,
}

/// An id of which nothing is known.
pub fn unknown(id: u16) -> Entry {
    Entry {
        id,
        found: None,
        coming: None,
    }
}

/// The last changes in force of some ids, on the page so many before the newest and all newer ones.
pub fn find_since<F: NorFlash>(flash: &F, newest: u32, back: usize, entries: &mut [Entry]) {
    for newer in 0..back + 1 {
        if let Some(page) = counting(flash, newest, back - newer) {
            find_on(flash, page, entries);
        }
    }
}

/// The last change in force of an id on the page so many before the newest.
pub fn last_on<F: NorFlash>(flash: &F, newest: u32, back: usize, id: u16) -> Option<Place> {
    let Some(page) = counting(flash, newest, back) else {
        return None;
    };
    let mut entries = [unknown(id)];
    find_on(flash, page, &mut entries);
    entries[0].found
}

/// The last changes in force of some ids, where the page has any.
fn find_on<F: NorFlash>(flash: &F, page: usize, entries: &mut [Entry]) {
    let _pages = flash.pages();
    let mut pending = None;
    for slot in 1..PAGE_SLOTS {
        let place = Place {
            page: page as u8,
            slot: slot as u16,
        };
        pending = after(pending, kind_in(flash, page, slot), place, entries);
    }
}

/// What has not all come after one slot more.
fn after(pending: Option<Open>, word: Word, place: Place, entries: &mut [Entry]) -> Option<Open> {
    match word {
        Word::Data => settled(after_data(pending), entries),
        Word::Begins(head) => after_head(pending, head, place, entries),
        Word::Other => None,
    }
}

/// A word of a value more.
fn after_data(pending: Option<Open>) -> Option<Open> {
    match pending {
        Some(pending) => {
            if pending.left > 0 {
                Some(Open {
                    left: pending.left - 1,
                    last: pending.last,
                })
            } else {
                None
            }
        }
        None => None,
    }
}

/// A head more: the first one of a change, or the next one where all words of the one before have come.
fn after_head(
    pending: Option<Open>,
    head: Head,
    place: Place,
    entries: &mut [Entry],
) -> Option<Open> {
    if !head.first && !waits_for_head(pending) {
        return None;
    }
    note(entries, head, place);
    settled(
        Some(Open {
            left: data_words(head.len),
            last: head.last,
        }),
        entries,
    )
}

/// Whether a change goes on with a head.
fn waits_for_head(pending: Option<Open>) -> bool {
    match pending {
        Some(pending) => pending.left == 0,
        None => false,
    }
}

/// What has not all come of a change, which is in force where nothing is to come.
fn settled(pending: Option<Open>, entries: &mut [Entry]) -> Option<Open> {
    match pending {
        Some(pending) => {
            if pending.left == 0 && pending.last {
                come_in_force(entries);
                None
            } else {
                Some(pending)
            }
        }
        None => None,
    }
}

/// A head in a change whose words have not all come. Where it is the first one, nothing is known of others.
fn note(entries: &mut [Entry], head: Head, place: Place) {
    for entry in entries.iter_mut() {
        *entry = noted(*entry, head, place);
    }
}

/// An entry with a head more.
fn noted(entry: Entry, head: Head, place: Place) -> Entry {
    let coming = if entry.id == head.id {
        Some(place)
    } else if head.first {
        None
    } else {
        entry.coming
    };
    Entry {
        id: entry.id,
        found: entry.found,
        coming,
    }
}

/// All words of a change have come.
fn come_in_force(entries: &mut [Entry]) {
    for entry in entries.iter_mut() {
        *entry = come(*entry);
    }
}

/// An entry whose head has come.
fn come(entry: Entry) -> Entry {
    let found = match entry.coming {
        Some(place) => Some(place),
        None => entry.found,
    };
    Entry {
        id: entry.id,
        found,
        coming: entry.coming,
    }
}
