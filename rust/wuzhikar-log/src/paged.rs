//! Settings over all pages of a flash: values of up to 1,024 bytes on 2 to 8 pages. Written by hand: tested, not proved.
//!
//! [`PagedSettings`] is the larger sibling of [`FlashSettings`](crate::FlashSettings), with words of its own: neither reads the
//! other's pages. Of N pages N - 1 hold values, and one is the spare. A value of n bytes takes 1 + (n + 2) / 3 slots of a page,
//! which has 510 for values.
//!
//! What was answered `Ok` is there after every power loss. A power loss inside a call leaves the values before or all of its
//! changes. Each call makes all of its flash operations before it comes back: where the newest page has no room, the values alive
//! on the oldest page move to the spare, in at most one erase and 511 programs, and at most N - 1 pages move.
//!
//! ```
//! # fn main() -> Result<(), Box<dyn core::error::Error>> {
//! # #[cfg(feature = "sim")]
//! # {
//! use wuzhikar_log::SimFlash;
//! use wuzhikar_log::paged::{Change, PagedSettings};
//!
//! const SCHEMA: u16 = 0;
//! const NETWORK: u16 = 1;
//! const KEY: u16 = 2;
//! const CERTIFICATE: u16 = 3;
//! const STARTS: u16 = 4;
//! const OLD_KEY: u16 = 5;
//!
//! let mut settings = PagedSettings::mount(SimFlash::blank(4)?)?;
//! settings.set(NETWORK, "my network")?;
//! settings.set(OLD_KEY, "its key")?;
//! settings.set(CERTIFICATE, [0x30; 900])?;
//!
//! // A counter.
//! let starts = settings.value(STARTS)?.and_then(|value| value.as_u32()).unwrap_or(0);
//! settings.set(STARTS, (starts + 1).to_le_bytes())?;
//!
//! // A migration: the new schema number is in force with all that it asks for, or not at all.
//! if settings.value(SCHEMA)?.is_none() {
//!     let mut key = [0; 64];
//!     let value = settings.get(OLD_KEY, &mut key)?;
//!     settings.transaction(&[
//!         Change { id: KEY, value },
//!         Change { id: OLD_KEY, value: None },
//!         Change { id: SCHEMA, value: Some(&[1]) },
//!     ])?;
//! }
//!
//! let settings = PagedSettings::mount(settings.into_flash())?;
//! assert_eq!(settings.get(KEY, &mut [0; 64])?, Some(&b"its key"[..]));
//! assert_eq!(settings.length(CERTIFICATE), Some(900));
//! let mut ids: Vec<u16> = settings.ids().collect();
//! ids.sort();
//! assert_eq!(ids, [SCHEMA, NETWORK, KEY, CERTIFICATE, STARTS]);
//! # }
//! # Ok(())
//! # }
//! ```

use crate::page_count::PageCount;
use crate::parts::flash_model::{FlashFault, NorFlash};
use crate::parts::settings::Value;
use crate::parts::settings_log as calls;
use crate::whole::Dropped;
use crate::{FlashLog, LogRefusal};

pub use crate::parts::settings_log::{Change, MAX_BYTES, SettingsError};

/// Settings over all pages of a flash, and their flash: see [the module](self).
#[derive(Debug)]
pub struct PagedSettings<F> {
    flash: F,
}

impl<F: NorFlash> PagedSettings<F> {
    /// Takes the flash of settings, which they own from then on. Nothing is read or written. A blank one has no values.
    ///
    /// # Errors
    ///
    /// `PageCount` if the flash has not 2 to 8 pages. It is dropped then.
    pub fn mount(flash: F) -> Result<PagedSettings<F>, PageCount> {
        PageCount::check(&flash)?;
        Ok(PagedSettings { flash })
    }

    /// Reads the value of an id into bytes that the caller lends, and returns those that it has; `None` if it has no value. The
    /// pages that count are read up to the newest one with a change of the id, and then the value's own slots.
    ///
    /// # Errors
    ///
    /// `TooLong` if the value has more bytes than are lent; [`length`](Self::length) says how many. `Damaged` if the flash reads
    /// otherwise from one moment to the next.
    pub fn get<'a>(&self, id: u16, into: &'a mut [u8]) -> Result<Option<&'a [u8]>, SettingsError> {
        Ok(calls::get(&self.flash, id, into)?.map(|len| &into[..len]))
    }

    /// Returns how many bytes the value of an id has, if it has one.
    pub fn length(&self, id: u16) -> Option<usize> {
        calls::length(&self.flash, id)
    }

    /// Returns whether an id has a value.
    pub fn contains(&self, id: u16) -> bool {
        self.length(id).is_some()
    }

    /// Returns a value of at most 64 bytes, as a [`Value`] that reads as a number, a truth value or text.
    ///
    /// # Errors
    ///
    /// As [`get`](Self::get), with 64 bytes lent.
    pub fn value(&self, id: u16) -> Result<Option<Value>, SettingsError> {
        let mut bytes = [0; crate::MAX_BYTES];
        Ok(self.get(id, &mut bytes)?.and_then(Value::new))
    }

    /// Returns the ids that have a value, each once, in no order that is promised. Each page is read once for every 16 of its values.
    pub fn ids(&self) -> impl Iterator<Item = u16> + '_ {
        let newest = calls::newest(&self.flash);
        let pages = if newest.is_some() { self.flash.pages() - 1 } else { 0 };
        (0..pages).flat_map(move |back| Batches { flash: &self.flash, newest: newest.unwrap_or(0), back, from: 1 }).flatten()
    }

    /// Stores a value of at most 1,024 bytes. Nothing is written if the id has this value already.
    ///
    /// # Errors
    ///
    /// As [`transaction`](Self::transaction).
    pub fn set(&mut self, id: u16, bytes: impl AsRef<[u8]>) -> Result<(), SettingsError> {
        calls::set(&mut self.flash, id, bytes.as_ref())
    }

    /// Removes the value of an id. Nothing is written if it has none. There is always room for it.
    ///
    /// # Errors
    ///
    /// As [`transaction`](Self::transaction), but never `Full`.
    pub fn remove(&mut self, id: u16) -> Result<(), SettingsError> {
        calls::remove(&mut self.flash, id)
    }

    /// Stores several changes, which are in force together: a power loss leaves all of them or none. Of one id the last change
    /// counts. Nothing is written if each id has the value already that it is given.
    ///
    /// # Errors
    ///
    /// In this order `TooLong`, `Foreign`, `Damaged` and `Full`, each before any operation; then `Worn`, and `Fault` if the flash
    /// failed. All values are as before then.
    ///
    /// The changes have to fit on one page: `Full` comes if they take more than 510 slots, or if each page that counts has too many
    /// alive. So it never comes while all values take at most (N - 1) (510 - w) slots, where the changes take w.
    pub fn transaction(&mut self, changes: &[Change<'_>]) -> Result<(), SettingsError> {
        calls::transaction(&mut self.flash, changes)
    }

    /// Returns how many slots the newest page has left for values. Where there are too few, a change moves pages first.
    pub fn room_left(&self) -> usize {
        calls::room_left(&self.flash)
    }

    /// Erases all pages, whatever they hold, and so **all values** ([`FlashLog::format`]).
    ///
    /// # Errors
    ///
    /// `FlashFault` if a page could not be erased, or the flash has not 2 to 8 pages. The flash is dropped then.
    pub fn format(flash: F) -> Result<(PagedSettings<F>, Dropped), FlashFault> {
        let mut log = FlashLog::mount(flash).map_err(|_| FlashFault)?;
        let dropped = log.format()?;
        Ok((PagedSettings { flash: log.into_flash() }, dropped))
    }

    /// Returns the flash, to look at it.
    pub fn flash(&self) -> &F {
        &self.flash
    }

    /// Drops the settings, and returns the flash as it is.
    pub fn into_flash(self) -> F {
        self.flash
    }
}

/// The values alive on a page, some at a time.
struct Batches<'a, F> {
    flash: &'a F,
    newest: u32,
    /// How many pages it stands before the newest.
    back: usize,
    /// The next slot.
    from: usize,
}

impl<F: NorFlash> Iterator for Batches<'_, F> {
    type Item = Ids;

    fn next(&mut self) -> Option<Ids> {
        if self.from >= crate::PAGE_SLOTS {
            return None;
        }
        let batch = calls::alive_from(self.flash, self.newest, self.back, self.from);
        self.from = batch.next();
        Some(Ids { batch, at: 0 })
    }
}

/// The ids of some values.
struct Ids {
    batch: calls::Batch,
    at: usize,
}

impl Iterator for Ids {
    type Item = u16;

    fn next(&mut self) -> Option<u16> {
        while self.at < calls::BATCH {
            self.at += 1;
            if let Some(id) = self.batch.id(self.at - 1) {
                return Some(id);
            }
        }
        None
    }
}

impl core::fmt::Display for SettingsError {
    fn fmt(&self, f: &mut core::fmt::Formatter<'_>) -> core::fmt::Result {
        match self {
            SettingsError::TooLong => f.write_str("a value has at most 1,024 bytes, and is read into as many as it has"),
            SettingsError::Foreign => f.write_str("the flash holds something else"),
            SettingsError::Damaged => f.write_str("a page has lost its header, or a value reads otherwise than before"),
            SettingsError::Full => f.write_str("no page has room for the changes"),
            SettingsError::Worn => LogRefusal::Worn.fmt(f),
            SettingsError::Fault => FlashFault.fmt(f),
        }
    }
}

impl core::error::Error for SettingsError {}

#[cfg(all(test, feature = "sim"))]
mod tests;
