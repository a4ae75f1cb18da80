//! Calls of a log and its flash that come back when all is done. Written by hand: tested, not proved.

use crate::face::{FlashLog, LogRefusal};
use crate::parts::flash_model::{FlashFault, NorFlash};
use crate::parts::page_turnover::Step;

/// Why words were not stored. Those on the active page stay.
#[derive(Clone, Copy, Debug, PartialEq, Eq)]
pub enum WriteError {
    /// The log refused the call, and nothing was written.
    Refused(LogRefusal),
    /// A flash operation failed, and did not read back as intended. A second try writes elsewhere: an append into the next
    /// slot, a compaction after an erase.
    Fault,
}

/// What [`FlashLog::format`] erased.
#[derive(Clone, Copy, Debug, PartialEq, Eq)]
pub struct Dropped {
    /// How many words were on the active page.
    pub words: usize,
    /// The lowest page whose slot 0 was not sound, if any was.
    pub unsound: Option<usize>,
}

impl<F: NorFlash> FlashLog<F> {
    /// Appends a word, and returns when it is stored: one program.
    ///
    /// # Errors
    ///
    /// `Refused` with the reasons of [`append`](FlashLog::append): after `NoRoom` a [`rewrite`](FlashLog::rewrite) makes room.
    /// `Fault` if the flash failed; the words on the page stay.
    pub fn push(&mut self, word: u32) -> Result<(), WriteError> {
        self.append(word)?;
        self.finish()
    }

    /// Compacts to the next page with these words alone, and returns when they are stored. That is at most one erase, a
    /// program for each word, and one for the commit header, which puts all of them in force at once.
    ///
    /// # Errors
    ///
    /// `Refused` with the reasons of [`turn`](FlashLog::turn), and with `NoRoom` if there are more than 511 words. `Fault` if
    /// the flash failed. The words before stay then.
    pub fn rewrite(&mut self, words: impl IntoIterator<Item = u32>) -> Result<(), WriteError> {
        self.turn()?;
        for word in words {
            if !self.wants_copy() {
                self.remount(|_| ());
                return Err(WriteError::Refused(LogRefusal::NoRoom));
            }
            self.copy(word)?;
            self.finish()?;
        }
        self.end_copies()?;
        self.finish()
    }

    /// Compacts to the next page with the words that `keep` takes, in their order, and returns when they are stored. Each is
    /// read from the page before, without a copy in RAM.
    ///
    /// # Errors
    ///
    /// `Refused` with the reasons of [`turn`](FlashLog::turn), `Fault` if the flash failed. The words before stay then.
    ///
    /// ```
    /// # fn main() -> Result<(), Box<dyn core::error::Error>> {
    /// # #[cfg(feature = "sim")]
    /// # {
    /// use wuzhikar_log::{FlashLog, SimFlash};
    ///
    /// let mut log = FlashLog::mount(SimFlash::blank(2)?)?;
    /// log.rewrite([5, 6, 7])?;
    /// log.rewrite_with(|word| word != 6)?;
    /// assert!(log.words().eq([5, 7]));
    /// # }
    /// # Ok(())
    /// # }
    /// ```
    pub fn rewrite_with(&mut self, mut keep: impl FnMut(u32) -> bool) -> Result<(), WriteError> {
        self.turn()?;
        let mut at = 0;
        while let Some(word) = self.words().nth(at) {
            at += 1;
            if keep(word) {
                self.copy(word)?;
                self.finish()?;
            }
        }
        self.end_copies()?;
        self.finish()
    }

    /// Erases all pages, whatever they hold, and reports what it dropped. **This drops every word**, also those that a
    /// damaged page may have had. It is for a flash that holds something else, or is not [`usable`](FlashLog::usable).
    /// Afterwards the flash is blank, and needs a [`rewrite`](FlashLog::rewrite) first.
    ///
    /// The active page is erased last, so a power loss leaves its words or fewer, and none of an older page.
    ///
    /// # Errors
    ///
    /// `FlashFault` if a page could not be erased. Those before it are.
    ///
    /// ```
    /// # fn main() -> Result<(), Box<dyn core::error::Error>> {
    /// # #[cfg(feature = "sim")]
    /// # {
    /// use wuzhikar_log::{Dropped, FlashLog, NorFlash, SimFlash, Unsound};
    ///
    /// let mut flash = SimFlash::blank(2)?;
    /// // Something else wrote into slot 0 of page 1.
    /// flash.program_slot(1, 0, [0; 8])?;
    /// let mut log = FlashLog::mount(flash)?;
    /// assert_eq!(log.usable(), Err(Unsound { page: 1 }));
    /// assert_eq!(log.format()?, Dropped { words: 0, unsound: Some(1) });
    /// assert_eq!(log.usable(), Ok(()));
    /// # }
    /// # Ok(())
    /// # }
    /// ```
    pub fn format(&mut self) -> Result<Dropped, FlashFault> {
        let dropped = Dropped { words: self.words().count(), unsound: self.usable().err().map(|unsound| unsound.page) };
        let active = self.log().active().map(|(page, _)| page);
        self.remount(|flash| {
            let others = (0..flash.pages()).filter(|&page| Some(page) != active);
            others.chain(active).try_for_each(|page| flash.erase_page(page))
        })?;
        Ok(dropped)
    }

    /// Makes the steps of what is under way, until it is done or wants a word to copy.
    fn finish(&mut self) -> Result<(), WriteError> {
        loop {
            match self.step() {
                Step::Idle | Step::Committed => return Ok(()),
                Step::Moved => {}
                Step::Failed => return Err(WriteError::Fault),
            }
        }
    }
}

impl From<LogRefusal> for WriteError {
    fn from(refusal: LogRefusal) -> WriteError {
        WriteError::Refused(refusal)
    }
}

impl core::fmt::Display for WriteError {
    fn fmt(&self, f: &mut core::fmt::Formatter<'_>) -> core::fmt::Result {
        match self {
            WriteError::Refused(refusal) => refusal.fmt(f),
            WriteError::Fault => FlashFault.fmt(f),
        }
    }
}

impl core::error::Error for WriteError {}
