//! Calls that check, where the exported ones ask something of their caller, and a log that owns its flash. Written by
//! hand: tested, not proved.

use crate::page_count::PageCount;
use crate::parts::flash_model::NorFlash;
use crate::parts::page_turnover::{Log, Step, TurnRefusal, Unsound, Words};

/// Why a log refuses a call, which then changes nothing.
#[derive(Clone, Copy, Debug, PartialEq, Eq)]
pub enum LogRefusal {
    /// An append or a compaction is in progress; for a copy or the end of copies, no compaction waits for it.
    NotNow,
    /// Slot 0 of a page is not sound, so nothing may be written.
    Unsound,
    /// The active page has no room, or there is none: a compaction makes some.
    NoRoom,
    /// The active page has the greatest sequence number, 268,435,455, so no compaction can follow.
    Worn,
}

impl Log {
    /// Takes a word to append, which the next step programs.
    ///
    /// # Errors
    ///
    /// In this order: `NotNow` while something is in progress, `Unsound` if a page is unsound, `NoRoom` if the active page is
    /// full or a blank flash has none. Nothing changes then.
    pub fn append(&mut self, word: u32) -> Result<(), LogRefusal> {
        if self.busy() {
            return Err(LogRefusal::NotNow);
        }
        if self.usable().is_err() {
            return Err(LogRefusal::Unsound);
        }
        if !self.room() {
            return Err(LogRefusal::NoRoom);
        }
        self.begin_append(word);
        Ok(())
    }

    /// Begins a compaction to the next page, which then wants the words to copy, and their end.
    ///
    /// # Errors
    ///
    /// In this order: `NotNow` while something is in progress, `Unsound` if a page is unsound, `Worn` if the active
    /// page has the greatest sequence number. Nothing changes then.
    pub fn turn(&mut self) -> Result<(), LogRefusal> {
        if self.busy() {
            return Err(LogRefusal::NotNow);
        }
        match self.begin_turn() {
            Ok(()) => Ok(()),
            Err(TurnRefusal::Unsound) => Err(LogRefusal::Unsound),
            Err(TurnRefusal::Worn) => Err(LogRefusal::Worn),
        }
    }

    /// Gives a compaction the next word to copy, if it `wants_copy`.
    ///
    /// # Errors
    ///
    /// `NotNow` if no compaction waits for a word, or has room for it.
    pub fn copy(&mut self, word: u32) -> Result<(), LogRefusal> {
        if !self.wants_copy() {
            return Err(LogRefusal::NotNow);
        }
        self.offer_copy(word);
        Ok(())
    }

    /// Ends the copies of a compaction, if it `wants` that: its header is next.
    ///
    /// # Errors
    ///
    /// `NotNow` if no compaction waits for that.
    pub fn end_copies(&mut self) -> Result<(), LogRefusal> {
        if !self.wants() {
            return Err(LogRefusal::NotNow);
        }
        self.seal();
        Ok(())
    }
}

impl core::fmt::Display for LogRefusal {
    fn fmt(&self, f: &mut core::fmt::Formatter<'_>) -> core::fmt::Result {
        f.write_str(match self {
            LogRefusal::NotNow => "the log can't take this now",
            LogRefusal::Unsound => "slot 0 of a page is not sound",
            LogRefusal::NoRoom => "the active page has no room",
            LogRefusal::Worn => "the active page has the greatest sequence number",
        })
    }
}

impl core::error::Error for LogRefusal {}

/// A log and its flash in one.
///
/// No call has a condition on its caller, but that [`remount`](FlashLog::remount) leaves the number of pages as it is.
///
/// ```
/// # fn main() -> Result<(), Box<dyn core::error::Error>> {
/// # #[cfg(feature = "sim")]
/// # {
/// use wuzhikar_log::{FlashLog, LogRefusal, SimFlash, Step, WriteError};
///
/// let mut log = FlashLog::mount(SimFlash::blank(2)?)?;
/// // A blank flash has no active page: a compaction makes one, here with no words to copy.
/// assert_eq!(log.push(5), Err(WriteError::Refused(LogRefusal::NoRoom)));
/// log.rewrite([])?;
/// log.push(5)?;
/// // The same in steps of one operation each, for a main loop that has other things to do.
/// log.append(6)?;
/// while log.busy() {
///     assert_ne!(log.step(), Step::Failed);
/// }
/// // What is in the flash is there for whoever mounts it next.
/// let log = FlashLog::mount(log.into_flash())?;
/// assert_eq!(log.words().collect::<Vec<u32>>(), [5, 6]);
/// # }
/// # Ok(())
/// # }
/// ```
#[derive(Debug)]
pub struct FlashLog<F> {
    log: Log,
    flash: F,
}

impl<F: NorFlash> FlashLog<F> {
    /// Mounts the log of a flash, which it owns from then on ([`Log::mount`]). The flash is read and not written.
    ///
    /// # Errors
    ///
    /// `PageCount` if the flash has not 2 to 8 pages. It is neither read nor written then, and dropped.
    pub fn mount(flash: F) -> Result<FlashLog<F>, PageCount> {
        PageCount::check(&flash)?;
        Ok(FlashLog { log: Log::mount(&flash), flash })
    }

    /// Returns the words on the active page, the oldest first. Each is read from the flash when it is asked for.
    pub fn words(&self) -> Words<'_, F> {
        self.log.words(&self.flash)
    }

    /// Takes a word to append, which the next step programs ([`Log::append`]).
    ///
    /// # Errors
    ///
    /// `NotNow`, `Unsound` or `NoRoom`, as there.
    pub fn append(&mut self, word: u32) -> Result<(), LogRefusal> {
        self.log.append(word)
    }

    /// Begins a compaction to the next page ([`Log::turn`]).
    ///
    /// # Errors
    ///
    /// `NotNow`, `Unsound` or `Worn`, as there.
    pub fn turn(&mut self) -> Result<(), LogRefusal> {
        self.log.turn()
    }

    /// Gives a compaction the next word to copy ([`Log::copy`]).
    ///
    /// # Errors
    ///
    /// `NotNow` if no compaction waits for a word, or has room for it.
    pub fn copy(&mut self, word: u32) -> Result<(), LogRefusal> {
        self.log.copy(word)
    }

    /// Ends the copies of a compaction ([`Log::end_copies`]).
    ///
    /// # Errors
    ///
    /// `NotNow` if no compaction waits for that.
    pub fn end_copies(&mut self) -> Result<(), LogRefusal> {
        self.log.end_copies()
    }

    /// Makes the next flash operation of what is in progress, one at most ([`Log::step`]).
    pub fn step(&mut self) -> Step {
        self.log.step(&mut self.flash)
    }

    /// Returns whether an append or a compaction is in progress ([`Log::busy`]).
    pub fn busy(&self) -> bool {
        self.log.busy()
    }

    /// Returns whether a compaction waits for a word to copy, or for the end of copies ([`Log::wants`]).
    pub fn wants(&self) -> bool {
        self.log.wants()
    }

    /// Returns whether a compaction has room for a word to copy ([`Log::wants_copy`]).
    pub fn wants_copy(&self) -> bool {
        self.log.wants_copy()
    }

    /// Returns whether anything may be written; `Unsound` names a page that forbids it ([`Log::usable`]).
    pub fn usable(&self) -> Result<(), Unsound> {
        self.log.usable()
    }

    /// Returns the log, to look at it.
    pub fn log(&self) -> &Log {
        &self.log
    }

    /// Returns the flash, to look at it.
    pub fn flash(&self) -> &F {
        &self.flash
    }

    /// Drops the log, and returns the flash as it is.
    pub fn into_flash(self) -> F {
        self.flash
    }

    /// Lends the flash to `change`, and mounts it again, as after a power loss: what was in progress is forgotten. `change`
    /// must leave the number of pages.
    pub fn remount<R>(&mut self, change: impl FnOnce(&mut F) -> R) -> R {
        let result = change(&mut self.flash);
        self.log = Log::mount(&self.flash);
        result
    }
}

#[cfg(feature = "sim")]
impl crate::SimFlash {
    /// Makes a blank flash of `pages` pages of 4,096 bytes, each FFh, with no mask armed and no operation counted.
    ///
    /// # Errors
    ///
    /// `PageCount` if `pages` is not 2 to 8, `Memory` if memory was refused.
    ///
    /// ```
    /// use wuzhikar_log::{FlashError, NorFlash, SimFlash};
    ///
    /// assert_eq!(SimFlash::blank(8)?.pages(), 8);
    /// assert_eq!(SimFlash::blank(9).err(), Some(FlashError::PageCount));
    /// # Ok::<(), FlashError>(())
    /// ```
    pub fn blank(pages: usize) -> Result<crate::SimFlash, crate::FlashError> {
        crate::SimFlash::new((), pages)
    }
}

#[cfg(feature = "sim")]
impl core::fmt::Display for crate::FlashError {
    fn fmt(&self, f: &mut core::fmt::Formatter<'_>) -> core::fmt::Result {
        f.write_str(match self {
            crate::FlashError::PageCount => "a flash has 2 to 8 pages",
            crate::FlashError::Memory => "there is no memory for the pages",
            crate::FlashError::ImageSize => "the bytes are not those of 2 to 8 whole pages",
        })
    }
}

#[cfg(feature = "sim")]
impl core::error::Error for crate::FlashError {}

impl core::fmt::Display for crate::FlashFault {
    fn fmt(&self, f: &mut core::fmt::Formatter<'_>) -> core::fmt::Result {
        f.write_str("an operation of the flash failed")
    }
}

impl core::error::Error for crate::FlashFault {}

#[cfg(all(test, feature = "sim"))]
mod tests {
    use super::*;
    use crate::SimFlash;
    use alloc::vec::Vec;

    #[test]
    fn a_log_refuses_what_it_cannot_take() {
        let mut log = FlashLog::mount(SimFlash::blank(2).expect("memory")).expect("2 pages");
        assert_eq!(log.append(5), Err(LogRefusal::NoRoom));
        assert_eq!(log.copy(5), Err(LogRefusal::NotNow));
        assert_eq!(log.end_copies(), Err(LogRefusal::NotNow));
        assert_eq!(log.turn(), Ok(()));
        assert_eq!(log.turn(), Err(LogRefusal::NotNow));
        assert_eq!(log.append(5), Err(LogRefusal::NotNow));
        assert_eq!(log.copy(5), Ok(()));
        assert_eq!(log.copy(5), Err(LogRefusal::NotNow));
        while !log.wants() {
            assert_ne!(log.step(), Step::Failed);
        }
        assert_eq!(log.end_copies(), Ok(()));
        while log.busy() {
            assert_ne!(log.step(), Step::Failed);
        }
        assert_eq!(log.append(6), Ok(()));
        assert_ne!(log.step(), Step::Failed);
        assert_eq!(log.words().collect::<Vec<u32>>(), [5, 6]);
        log.remount(|_| ());
        assert_eq!(log.words().collect::<Vec<u32>>(), [5, 6]);
    }
}
