// Exported from crates/settings_log/src/store.rt by bin/export-rust. Edit that file instead.
//! The calls of settings.

use crate::parts::settings_log::change::{Change, head_of, size, word_at};
use crate::parts::settings_log::moving::{advance, words_alive};
use crate::parts::settings_log::operation::{head_in, put, tail, word_in};
use crate::parts::settings_log::ring::{counting, newest, usable};
use crate::parts::settings_log::scan::{Place, last_on};
use crate::parts::settings_log::words::{Head, data_words, word_bytes};
use crate::parts::flash_model::{NorFlash, PAGE_SLOTS};

/// Why a change was not stored, or a value not read. All values are as before.
#[derive(Clone, Copy, Debug, PartialEq, Eq)]
pub enum SettingsError {
    /// A value has more than 1,024 bytes, or more than the bytes that were lent for it.
    TooLong,
    /// Slot 0 of a page holds a word that is no header of its place: something else wrote there.
    Foreign,
    /// Slot 0 of a page is not sound, a page that should count has lost its header, or a flash reads otherwise than before.
    Damaged,
    /// The changes find no page with room for them.
    Full,
    /// The newest page has the greatest number, 0FFFFFFFh.
    Worn,
    /// The flash answered a fault, and what was written does not read back. A second try writes elsewhere.
    Fault,
}

/// The slots of a page that sets are given: one is left for a removal.
const SET_SLOTS: usize = PAGE_SLOTS - 1;

/// How many bytes the value of an id has, if it has one.
pub fn length<F: NorFlash>(flash: &F, id: u16) -> Option<usize> {
    match value_place(flash, id) {
        Some((_, head)) => Some(head.len as usize),
        None => None,
    }
}

/// Reads the value of an id into the first of the bytes that are lent, and says how many they are; `None` where it has none.
///
/// `TooLong` where it has more bytes than are lent.
pub fn get<F: NorFlash>(flash: &F, id: u16, into: &mut [u8]) -> Result<Option<usize>, SettingsError> {
    let Some((place, head)) = value_place(flash, id) else {
        return Ok(None);
    };
    let len = head.len as usize;
    if len > into.len() {
        return Err(SettingsError::TooLong);
    }
    for at in 0..data_words(head.len) as usize {
        match word_in(flash, place.page as usize, place.slot as usize + 1 + at) {
            Some(word) => copy_three(into, 3 * at, len, word_bytes(word)),
            None => return Err(SettingsError::Damaged),
        }
    }
    Ok(Some(len))
}

/// Copies three bytes to a place, but none past the end of a value.
fn copy_three(into: &mut [u8], at: usize, end: usize, bytes: [u8; 3]) {
    for k in 0..3 {
        if at + k < end {
            into[at + k] = bytes[k];
        }
    }
}

/// Where the value of an id stands, with its head.
fn value_place<F: NorFlash>(flash: &F, id: u16) -> Option<(Place, Head)> {
    let Some(newest) = newest(flash) else {
        return None;
    };
    for back in 0..flash.pages() - 1 {
        if let Some(place) = last_on(flash, newest, back, id) {
            return value_at(flash, place);
        }
    }
    None
}

/// A change that gives a value, with its head; none where it takes one.
fn value_at<F: NorFlash>(flash: &F, place: Place) -> Option<(Place, Head)> {
    if place.page as usize >= flash.pages() {
        return None;
    }
    match head_in(flash, place.page as usize, place.slot as usize) {
        Some(head) => {
            if head.removal {
                None
            } else {
                Some((place, head))
            }
        }
        None => None,
    }
}

/// Stores a value of at most 1,024 bytes. Nothing is written where the id has this value already. Refusals as of `transaction`.
pub fn set<F: NorFlash>(flash: &mut F, id: u16, bytes: &[u8]) -> Result<(), SettingsError> {
    transaction(
        flash,
        &[Change {
            id,
            value: Some(bytes),
        }],
    )
}

/// Takes an id its value. Nothing is written where it has none. Refusals as of `transaction`, but that there is always room.
pub fn remove<F: NorFlash>(flash: &mut F, id: u16) -> Result<(), SettingsError> {
    transaction(flash, &[Change { id, value: None }])
}

/// Stores several changes, which are in force together: a loss of power leaves all of them or none. Of one id the last change
/// counts. Nothing is written where each id has the value already that it is given.
///
/// Refused are, in this order, `TooLong`, `Foreign`, `Damaged`, and `Full`, each before any operation; then `Worn`, and `Fault`
/// where the flash failed. All values are as before then.
pub fn transaction<F: NorFlash>(flash: &mut F, changes: &[Change<'_>]) -> Result<(), SettingsError> {
    let words = words_of(changes)?;
    usable(flash)?;
    if all_hold(flash, changes) {
        return Ok(());
    }
    let end = end_for(changes);
    if words >= end || !has_room(flash, words, end) {
        return Err(SettingsError::Full);
    }
    let at = room_made(flash, words, end)?;
    append(flash, changes, at)
}

/// How many words changes take; a sum of more than 512 stays one. `TooLong` where a value has more than 1,024 bytes.
fn words_of(changes: &[Change<'_>]) -> Result<usize, SettingsError> {
    let mut words = 0;
    for change in changes {
        match head_of(change, true, true) {
            Some(head) => {
                if words <= PAGE_SLOTS {
                    words += size(head) as usize;
                }
            }
            None => return Err(SettingsError::TooLong),
        }
    }
    Ok(words)
}

/// The slot that changes may not reach: the last one of a page is kept for a removal.
fn end_for(changes: &[Change<'_>]) -> usize {
    match changes {
        [Change { value: None, .. }] => PAGE_SLOTS,
        _ => SET_SLOTS,
    }
}

/// Whether each id has the value already that it is given.
fn all_hold<F: NorFlash>(flash: &F, changes: &[Change<'_>]) -> bool {
    for change in changes {
        if !holds(flash, change) {
            return false;
        }
    }
    true
}

/// Whether an id has the value already that it is given.
fn holds<F: NorFlash>(flash: &F, change: &Change<'_>) -> bool {
    let held = value_place(flash, change.id);
    match change.value {
        None => held.is_none(),
        Some(bytes) => match held {
            Some((place, head)) => head.len as usize == bytes.len()
                && has_bytes(flash, place, head, bytes),
            None => false,
        },
    }
}

/// Whether the words behind a head are those of a value.
fn has_bytes<F: NorFlash>(flash: &F, place: Place, head: Head, bytes: &[u8]) -> bool {
    let words = data_words(head.len) as usize;
    for at in 0..words {
        match word_in(flash, place.page as usize, place.slot as usize + 1 + at) {
            Some(word) => {
                if !has_three(bytes, 3 * at, word_bytes(word)) {
                    return false;
                }
            }
            None => return false,
        }
    }
    true
}

/// Whether three bytes stand at a place, as far as there are so many.
fn has_three(bytes: &[u8], at: usize, three: [u8; 3]) -> bool {
    for k in 0..3 {
        if at + k < bytes.len() && bytes[at + k] != three[k] {
            return false;
        }
    }
    true
}

/// Whether so many words find room: behind the last word of the newest page, on a page that does not count yet, or on one beside
/// the values that are alive there.
fn has_room<F: NorFlash>(flash: &F, words: usize, end: usize) -> bool {
    let Some(newest) = newest(flash) else {
        return true;
    };
    if tail_of(flash, newest) <= end - words {
        return true;
    }
    for back in 0..flash.pages() - 1 {
        if back > newest as usize || 1 + words_alive(flash, newest, back) <= end - words {
            return true;
        }
    }
    false
}

/// One more than the greatest slot of the newest page that is not Free.
fn tail_of<F: NorFlash>(flash: &F, newest: u32) -> usize {
    match counting(flash, newest, 0) {
        Some(page) => tail(flash, page),
        None => PAGE_SLOTS,
    }
}

/// Makes room for so many words, by moves of the oldest page: the page and the slot that they may begin in.
fn room_made<F: NorFlash>(
    flash: &mut F,
    words: usize,
    end: usize,
) -> Result<(usize, usize), SettingsError> {
    for _ in 0..flash.pages() + 1 {
        if let Some(at) = room_at(flash, words, end) {
            return Ok(at);
        }
        advance(flash)?;
    }
    Err(SettingsError::Full)
}

/// The newest page and its first free slot, where there is room for so many words.
fn room_at<F: NorFlash>(flash: &F, words: usize, end: usize) -> Option<(usize, usize)> {
    let Some(newest) = newest(flash) else {
        return None;
    };
    let Some(page) = counting(flash, newest, 0) else {
        return None;
    };
    let slot = tail(flash, page);
    if slot <= end - words {
        Some((page, slot))
    } else {
        None
    }
}

/// Writes the words of changes from a slot on.
fn append<F: NorFlash>(
    flash: &mut F,
    changes: &[Change<'_>],
    at: (usize, usize),
) -> Result<(), SettingsError> {
    let (page, first) = at;
    let mut slot = first;
    for k in 0..changes.len() {
        match head_of(&changes[k], k == 0, k + 1 == changes.len()) {
            Some(head) => slot = append_one(flash, &changes[k], head, page, slot)?,
            None => return Err(SettingsError::TooLong),
        }
    }
    Ok(())
}

/// Writes the words of a change that has this head, and says which slot is next.
fn append_one<F: NorFlash>(
    flash: &mut F,
    change: &Change<'_>,
    head: Head,
    page: usize,
    slot: usize,
) -> Result<usize, SettingsError> {
    let mut slot = slot;
    for at in 0..size(head) {
        slot = put(flash, page, slot, word_at(change, head, at))?;
    }
    Ok(slot)
}

/// How many slots of the newest page sets may still take.
pub fn room_left<F: NorFlash>(flash: &F) -> usize {
    match newest(flash) {
        Some(newest) => {
            let tail = tail_of(flash, newest);
            if tail < SET_SLOTS {
                SET_SLOTS - tail
            } else {
                0
            }
        }
        None => SET_SLOTS - 1,
    }
}
