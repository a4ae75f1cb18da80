// Exported from crates/settings/src/lib.rt by bin/export-rust. Edit that file instead.
//! Settings: a map from ids of 16 bits to values of 0 to 64 bytes, kept in NOR flash. On one page 511
//! words are alive: a value of n bytes takes 1 + (n + 2) / 3 of them, so some 1,500 bytes of values fit.
//!
//! A change is kept as words of a log, and is in force once its last word is there, and not before.
//! Of each id the last change counts. A compaction writes the words of all
//! values to a new page, and they stand for the same values.
//!
//! `Settings` keeps the log and what is under way; values are looked up in the flash, or in a table that
//! the caller lends (`fill_table`). The guarantee is that each lookup is exact, whatever words a cut has
//! left, and that at each moment of a call all of its changes are in force or none, also where the
//! power is cut inside a flash operation. What was answered `Ok` is in force. A call makes at most 513
//! operations, and a healthy flash with room stores each change. `step` makes one operation, for a loop
//! that must not wait.

mod change;
mod lookup;
mod store;
mod table;
mod words;

pub use change::{Change, MAX_BYTES, Value};
pub use lookup::{IDS, PAGE_WORDS, all_known, next_value, value_after, value_in, words_alive};
pub use store::{Job, Settings, SettingsError, Work};
pub use table::{
    FREE_ENTRY, TableTooSmall, fill_table, refresh_table, table_contains, table_value,
};
pub use words::{size, word_at};
