// Exported from crates/settings/src/table.rt by bin/export-rust. Edit that file instead.
//! The values in a table that the caller lends, which are read without the flash.

use crate::parts::settings::change::{Change, Value};
use crate::parts::settings::lookup::IDS;
use crate::parts::settings::store::Settings;
use crate::parts::flash_model::NorFlash;

/// An entry of a table that has no value.
pub const FREE_ENTRY: Change = Change { id: 0, value: None };

/// The table has no entry for a value.
#[derive(Clone, Copy, Debug, PartialEq, Eq)]
pub struct TableTooSmall;

/// The value that a table has for an id, if any. No flash is read.
pub fn table_value(table: &[Change], id: u16) -> Option<&Value> {
    let mut rest = table;
    while let [entry, later @ ..] = rest {
        if entry.id == id {
            if let Some(value) = &entry.value {
                return Some(value);
            }
        }
        rest = later;
    }
    None
}

/// Whether a table has a value for an id. No flash is read.
pub fn table_contains(table: &[Change], id: u16) -> bool {
    table_value(table, id).is_some()
}

/// Gives a table the value of each id that has one, and no other: `TableTooSmall` exactly where fewer
/// entries than ids with a value are lent, and then the table is of no use. The words of the page are
/// read twice for each id that one of them names, and once more.
pub fn fill_table<F: NorFlash>(
    settings: &Settings,
    flash: &F,
    table: &mut [Change],
) -> Result<(), TableTooSmall> {
    let mut from = 0;
    let mut at = 0;
    while at < table.len() {
        let entry = entry_from(settings, flash, from);
        from = end_of(&entry);
        table[at] = entry;
        at += 1;
    }
    match entry_from(settings, flash, from).value {
        Some(_) => Err(TableTooSmall),
        None => Ok(()),
    }
}

/// The first id from one on that has a value, with it, or a free entry.
fn entry_from<F: NorFlash>(settings: &Settings, flash: &F, from: u32) -> Change {
    if from < IDS {
        if let Some(change) = settings.next_from(flash, from) {
            return change;
        }
    }
    FREE_ENTRY
}

/// The id after that of an entry, and 65,536 after a free one.
fn end_of(entry: &Change) -> u32 {
    match &entry.value {
        Some(_) => u32::from(entry.id) + 1,
        None => IDS,
    }
}

/// Gives a table the value that an id has now, where it has those of all others: after a change of that
/// id, the table has all values again. The words of the page are read once. `TableTooSmall` where the
/// id has a value and no entry is free for it.
pub fn refresh_table<F: NorFlash>(
    settings: &Settings,
    flash: &F,
    table: &mut [Change],
    id: u16,
) -> Result<(), TableTooSmall> {
    forget(table, id);
    match settings.get(flash, id) {
        Some(value) => put(
            table,
            Change {
                id,
                value: Some(value),
            },
        ),
        None => Ok(()),
    }
}

/// Takes an id out of a table.
fn forget(table: &mut [Change], id: u16) {
    let mut at = 0;
    while at < table.len() {
        if table[at].id == id {
            table[at] = FREE_ENTRY;
        }
        at += 1;
    }
}

/// Puts a value into a table that has none of its id.
fn put(table: &mut [Change], change: Change) -> Result<(), TableTooSmall> {
    match free_place(table) {
        Some(at) => {
            table[at] = change;
            Ok(())
        }
        None => Err(TableTooSmall),
    }
}

/// The first entry without a value.
fn free_place(table: &[Change]) -> Option<usize> {
    let mut at = 0;
    while at < table.len() {
        if table[at].value.is_none() {
            return Some(at);
        }
        at += 1;
    }
    None
}
