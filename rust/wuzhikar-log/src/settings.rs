//! Settings and their flash in one. Each call is the exported one, lent its flash. Written by hand: tested, not proved.

mod values;

use crate::page_count::PageCount;
use crate::parts::flash_model::{FlashFault, NorFlash};
use crate::parts::settings::{Change, IDS, Settings, SettingsError, TableTooSmall, Value, Work, fill_table, refresh_table};
use crate::whole::Dropped;
use crate::{FlashLog, LogRefusal};

/// Settings and their flash: a map from ids to values of 0 to 64 bytes, of which some 1,500 bytes fit on a page.
///
/// A value of n bytes takes 1 + (n + 2) / 3 of the 511 words of a page. What was answered `Ok` is there after every power
/// loss. A power loss inside a call leaves the value before or the new one, and of a [`transaction`](Self::transaction) all
/// changes or none.
///
/// ```
/// # fn main() -> Result<(), Box<dyn core::error::Error>> {
/// # #[cfg(feature = "sim")]
/// # {
/// use wuzhikar_log::{FlashSettings, SimFlash};
///
/// let mut settings = FlashSettings::mount(SimFlash::blank(2)?)?;
/// settings.set(7, b"my network")?;
/// let settings = FlashSettings::mount(settings.into_flash())?;
/// assert_eq!(settings.get(7).as_ref().and_then(|name| name.as_str()), Some("my network"));
/// # }
/// # Ok(())
/// # }
/// ```
#[derive(Debug)]
pub struct FlashSettings<F> {
    settings: Settings,
    flash: F,
}

/// Changes that are under way, one flash operation a step ([`FlashSettings::begin`]). Dropped before their end, they leave all
/// values as before.
#[derive(Debug)]
pub struct UnderWay<'a, F> {
    of: &'a mut FlashSettings<F>,
    changes: &'a [Change],
}

impl<F: NorFlash> FlashSettings<F> {
    /// Mounts the settings of a flash, which they own from then on. The flash is read and not written. A blank one has no
    /// values.
    ///
    /// # Errors
    ///
    /// `PageCount` if the flash has not 2 to 8 pages. It is neither read nor written then, and dropped.
    pub fn mount(flash: F) -> Result<FlashSettings<F>, PageCount> {
        PageCount::check(&flash)?;
        Ok(FlashSettings { settings: Settings::mount(&flash), flash })
    }

    /// Returns the value of an id, if it has one. It is looked up in the flash.
    pub fn get(&self, id: u16) -> Option<Value> {
        self.settings.get(&self.flash, id)
    }

    /// Returns whether an id has a value.
    pub fn contains(&self, id: u16) -> bool {
        self.settings.contains(&self.flash, id)
    }

    /// Returns the ids that have a value, rising, each with its value.
    pub fn iter(&self) -> impl Iterator<Item = (u16, Value)> + '_ {
        let mut from = 0;
        core::iter::from_fn(move || {
            let Change { id, value } = self.settings.next_from(&self.flash, from)?;
            from = u32::from(id) + 1;
            Some((id, value?))
        })
        .take(IDS as usize)
    }

    /// Fills a table that the caller lends with the value of each id that has one. [`table_value`] and [`table_contains`]
    /// then answer as [`get`](Self::get) and [`contains`](Self::contains) do, without the flash.
    ///
    /// An entry takes 70 bytes of RAM. The words of the page are read twice for each id that one of them names, and once more.
    /// Nothing keeps a table up to date by itself: after a change call [`refresh_table`](Self::refresh_table).
    ///
    /// # Errors
    ///
    /// `TableTooSmall` if more ids have a value than there are entries. The table is of no use then.
    ///
    /// ```
    /// # fn main() -> Result<(), Box<dyn core::error::Error>> {
    /// # #[cfg(feature = "sim")]
    /// # {
    /// use wuzhikar_log::{FREE_ENTRY, FlashSettings, SimFlash, TableTooSmall, Value, table_value};
    ///
    /// let mut settings = FlashSettings::mount(SimFlash::blank(2)?)?;
    /// settings.set(7, "my network")?;
    /// let mut table = [FREE_ENTRY; 20];
    /// settings.fill_table(&mut table)?;
    /// assert_eq!(table_value(&table, 7).and_then(Value::as_str), Some("my network"));
    /// settings.set(7, "another one")?;
    /// settings.refresh_table(&mut table, 7)?;
    /// assert_eq!(table_value(&table, 7).and_then(Value::as_str), Some("another one"));
    /// assert_eq!(settings.fill_table(&mut []), Err(TableTooSmall));
    /// # }
    /// # Ok(())
    /// # }
    /// ```
    ///
    /// [`table_value`]: crate::table_value
    /// [`table_contains`]: crate::table_contains
    pub fn fill_table(&self, table: &mut [Change]) -> Result<(), TableTooSmall> {
        fill_table(&self.settings, &self.flash, table)
    }

    /// Gives a table that was filled the value that an id has now. Call it once for each id of a change that was stored. The
    /// words of the page are read once.
    ///
    /// # Errors
    ///
    /// `TableTooSmall` if the id has a value and no entry is free. The table then has all values but this one.
    pub fn refresh_table(&self, table: &mut [Change], id: u16) -> Result<(), TableTooSmall> {
        refresh_table(&self.settings, &self.flash, table, id)
    }

    /// Returns how many words of the 511 of a page no value takes. A new value of n bytes takes 1 + (n + 2) / 3 of them.
    pub fn room_left(&self) -> usize {
        self.settings.room_left(&self.flash)
    }

    /// Stores a value of at most 64 bytes: bytes, text, or a [`Value`] of a number. Nothing is written if the id has this
    /// value already.
    ///
    /// # Errors
    ///
    /// `TooLong` first, then the reasons of [`begin`](Self::begin), and `Fault` if the flash failed. All values are as before
    /// then.
    ///
    /// ```
    /// # fn main() -> Result<(), Box<dyn core::error::Error>> {
    /// # #[cfg(feature = "sim")]
    /// # {
    /// use wuzhikar_log::{FlashSettings, SettingsError, SimFlash, Value};
    ///
    /// let mut settings = FlashSettings::mount(SimFlash::blank(2)?)?;
    /// settings.set(1, "my network")?;
    /// settings.set(2, [10, 0, 0, 7])?;
    /// settings.set(3, Value::from(1_500u16))?;
    /// assert_eq!(settings.get(3).and_then(|value| value.as_u16()), Some(1_500));
    /// assert_eq!(settings.set(4, [0; 65]), Err(SettingsError::TooLong));
    /// # }
    /// # Ok(())
    /// # }
    /// ```
    pub fn set(&mut self, id: u16, bytes: impl AsRef<[u8]>) -> Result<(), SettingsError> {
        self.settings.set(&mut self.flash, id, bytes.as_ref())
    }

    /// Removes the value of an id. Nothing is written if it has none.
    ///
    /// # Errors
    ///
    /// The reasons of [`begin`](Self::begin), and `Fault` if the flash failed. All values are as before then.
    pub fn remove(&mut self, id: u16) -> Result<(), SettingsError> {
        self.settings.remove(&mut self.flash, id)
    }

    /// Compacts the values to the next page, which then has room for changes. Changes do so by themselves if they must.
    ///
    /// # Errors
    ///
    /// The reasons of [`begin`](Self::begin), and `Fault` if the flash failed. All values are as before then.
    pub fn compact(&mut self) -> Result<(), SettingsError> {
        self.settings.compact(&mut self.flash)
    }

    /// Stores several changes, which are in force together: a power loss leaves all of them or none. Of one id the last
    /// change counts. More than one, or none, take a compaction.
    ///
    /// # Errors
    ///
    /// The reasons of [`begin`](Self::begin), and `Fault` if the flash failed. All values are as before then.
    ///
    /// ```
    /// # fn main() -> Result<(), Box<dyn core::error::Error>> {
    /// # #[cfg(feature = "sim")]
    /// # {
    /// use wuzhikar_log::{Change, FlashSettings, SimFlash, Value};
    ///
    /// let mut settings = FlashSettings::mount(SimFlash::blank(2)?)?;
    /// settings.set(3, "an old key")?;
    /// settings.transaction(&[
    ///     Change { id: 1, value: Some(Value::try_from("my network")?) },
    ///     Change { id: 2, value: Some(Value::try_from("its key")?) },
    ///     Change { id: 3, value: None },
    /// ])?;
    /// assert!(settings.iter().map(|(id, _)| id).eq([1, 2]));
    /// # }
    /// # Ok(())
    /// # }
    /// ```
    pub fn transaction(&mut self, changes: &[Change]) -> Result<(), SettingsError> {
        self.settings.transaction(&mut self.flash, changes)
    }

    /// Begins changes that are stored one flash operation at a time, for a loop that must not wait. One change that there is
    /// room for takes 1 to 23 operations, all else at most 513. Changes that were dropped before their end are forgotten.
    ///
    /// # Errors
    ///
    /// In this order: `Unsound`, `Foreign`, `Full`, `Worn`, as [`SettingsError`] says. Nothing is written then.
    ///
    /// ```
    /// # fn main() -> Result<(), Box<dyn core::error::Error>> {
    /// # #[cfg(feature = "sim")]
    /// # {
    /// use wuzhikar_log::{Change, FlashSettings, SimFlash, Value, Work};
    ///
    /// let mut settings = FlashSettings::mount(SimFlash::blank(2)?)?;
    /// let changes = [Change { id: 7, value: Some(Value::from(true)) }];
    /// let mut under_way = settings.begin(&changes)?;
    /// let ended = loop {
    ///     match under_way.step() {
    ///         Work::Working => {} // The loop does its other work.
    ///         ended => break ended,
    ///     }
    /// };
    /// assert_eq!(ended, Work::Stored);
    /// assert_eq!(settings.get(7).and_then(|value| value.as_bool()), Some(true));
    /// # }
    /// # Ok(())
    /// # }
    /// ```
    pub fn begin<'a>(&'a mut self, changes: &'a [Change]) -> Result<UnderWay<'a, F>, SettingsError> {
        self.settings.begin(&self.flash, changes)?;
        Ok(UnderWay { of: self, changes })
    }

    /// Erases all pages, whatever they hold, and so **all values** ([`FlashLog::format`]).
    ///
    /// # Errors
    ///
    /// `FlashFault` if a page could not be erased, or the flash has not 2 to 8 pages. The flash is dropped then.
    pub fn format(flash: F) -> Result<(FlashSettings<F>, Dropped), FlashFault> {
        let mut log = FlashLog::mount(flash).map_err(|_| FlashFault)?;
        let dropped = log.format()?;
        let flash = log.into_flash();
        Ok((FlashSettings { settings: Settings::mount(&flash), flash }, dropped))
    }

    /// Returns the flash, to look at it.
    pub fn flash(&self) -> &F {
        &self.flash
    }

    /// Drops the settings, and returns the flash as it is.
    pub fn into_flash(self) -> F {
        self.flash
    }
}

impl<F: NorFlash> UnderWay<'_, F> {
    /// Makes the next flash operation. After `Stored` and `Failed` there is none.
    pub fn step(&mut self) -> Work {
        self.of.settings.step(&mut self.of.flash, self.changes)
    }
}

impl core::fmt::Display for SettingsError {
    fn fmt(&self, f: &mut core::fmt::Formatter<'_>) -> core::fmt::Result {
        match self {
            SettingsError::TooLong => f.write_str("a value has at most 64 bytes"),
            SettingsError::Full => f.write_str("the values do not fit on a page"),
            SettingsError::Unsound => LogRefusal::Unsound.fmt(f),
            SettingsError::Foreign => f.write_str("the flash holds a log of something else"),
            SettingsError::Worn => LogRefusal::Worn.fmt(f),
            SettingsError::Fault => FlashFault.fmt(f),
        }
    }
}

impl core::error::Error for SettingsError {}

impl core::fmt::Display for TableTooSmall {
    fn fmt(&self, f: &mut core::fmt::Formatter<'_>) -> core::fmt::Result {
        f.write_str("more ids have a value than the table has entries")
    }
}

impl core::error::Error for TableTooSmall {}

#[cfg(all(test, feature = "sim"))]
mod tests;
