// Exported from crates/settings/src/store.rt by bin/export-rust. Edit that file instead.
//! Settings in flash, and the steps that write them.

use crate::parts::settings::change::{Change, Value, are_changes};
use crate::parts::settings::lookup::{PAGE_WORDS, all_known, next_value, value_in, words_alive};
use crate::parts::settings::words::{size, word_at};
use crate::parts::flash_model::NorFlash;
use crate::parts::page_turnover::{Log, Step};

/// Why changes were not stored. All values are as before.
#[derive(Clone, Copy, Debug, PartialEq, Eq)]
pub enum SettingsError {
    /// The value has more than 64 bytes.
    TooLong,
    /// The values that there would be then do not fit on a page.
    Full,
    /// Slot 0 of a page is not sound: something else wrote there.
    Unsound,
    /// The flash holds words of something else, which a compaction would lose.
    Foreign,
    /// A compaction is needed, and the active page has the greatest sequence number, 0FFFFFFFh.
    Worn,
    /// The flash answered a fault, and what was written does not read back. A second try writes
    /// elsewhere.
    Fault,
}

/// What a step did.
#[derive(Clone, Copy, Debug, PartialEq, Eq)]
#[must_use]
pub enum Work {
    /// Nothing is under way, and no flash operation was made.
    Idle,
    /// One flash operation was made, and there are more to make. All values are as before.
    Working,
    /// The changes are stored, and in force.
    Stored,
    /// The flash answered a fault, and what was written does not read back. The changes are gone, and
    /// all values are as before.
    Failed,
}

/// What settings have under way.
#[derive(Clone, Copy, Debug)]
pub enum Job {
    /// Nothing.
    Resting,
    /// The words of one change, of which so many are there.
    Appending(u8),
    /// A compaction to a page with all values: it was given the words of the ids below `from`, and `at` of
    /// those of `from`.
    Turning { from: u32, at: u8 },
}

/// Settings in flash.
///
/// `begin` takes one change or several, and each `step` makes one flash operation for them, until it
/// answers Stored or Failed. Each call has to be lent the flash that was mounted, and each `step` the
/// changes that were begun.
#[derive(Debug)]
pub struct Settings {
    log: Log,
    job: Job,
}

impl Settings {
    /// Reads the log of a flash, and changes nothing.
    pub fn mount<F: NorFlash>(flash: &F) -> Settings {
        Settings {
            log: Log::mount(flash),
            job: Job::Resting,
        }
    }

    /// Whether changes are under way.
    pub fn busy(&self) -> bool {
        match self.job {
            Job::Resting => false,
            Job::Appending(_) | Job::Turning { .. } => true,
        }
    }

    /// The value of an id, if it has one. It is looked up in the flash.
    pub(crate) fn get<F: NorFlash>(&self, flash: &F, id: u16) -> Option<Value> {
        value_in(&self.log, flash, id)
    }

    /// Whether an id has a value.
    pub(crate) fn contains<F: NorFlash>(&self, flash: &F, id: u16) -> bool {
        value_in(&self.log, flash, id).is_some()
    }

    /// The first id from one on that has a value, with it: from 0 on, and then from the id after the
    /// last answer, all that there are.
    pub(crate) fn next_from<F: NorFlash>(&self, flash: &F, from: u32) -> Option<Change> {
        next_value(&self.log, flash, &[], from)
    }

    /// How many words of the 511 of a page no value takes.
    pub(crate) fn room_left<F: NorFlash>(&self, flash: &F) -> usize {
        let alive = words_alive(&self.log, flash, &[]) as usize;
        if alive < PAGE_WORDS {
            PAGE_WORDS - alive
        } else {
            0
        }
    }

    /// Stores a value of at most 64 bytes. Nothing is written where the id has this value already.
    pub(crate) fn set<F: NorFlash>(
        &mut self,
        flash: &mut F,
        id: u16,
        bytes: &[u8],
    ) -> Result<(), SettingsError> {
        match Value::new(bytes) {
            Some(value) => self.store(
                flash,
                Change {
                    id,
                    value: Some(value),
                },
            ),
            None => Err(SettingsError::TooLong),
        }
    }

    /// Takes an id its value. Nothing is written where it has none.
    pub(crate) fn remove<F: NorFlash>(&mut self, flash: &mut F, id: u16) -> Result<(), SettingsError> {
        self.store(flash, Change { id, value: None })
    }

    /// Moves the values to the next page, which then has room for changes. Changes do so by themselves
    /// where they must.
    pub(crate) fn compact<F: NorFlash>(&mut self, flash: &mut F) -> Result<(), SettingsError> {
        self.transaction(flash, &[])
    }

    /// Stores a change, unless it changes nothing.
    fn store<F: NorFlash>(&mut self, flash: &mut F, change: Change) -> Result<(), SettingsError> {
        if holds(&self.log, flash, &change) {
            return Ok(());
        }
        self.transaction(flash, &[change])
    }

    /// Takes changes, of which the first operation is made by the next `step`; what was under way is
    /// forgotten, as by a loss of power.
    ///
    /// One change is appended where there is room for its words, 1 to 23. Several, or none, or one
    /// without room, go to the next page with all other values, by at most one erase, a program for
    /// each of at most 511 words, and one for the header. Refused are, in this order, `Unsound`,
    /// `Foreign`, `Full` and `Worn`.
    pub(crate) fn begin<F: NorFlash>(&mut self, flash: &F, changes: &[Change]) -> Result<(), SettingsError> {
        self.rest(flash);
        if self.log.usable().is_err() {
            return Err(SettingsError::Unsound);
        }
        if !all_known(&self.log, flash) {
            return Err(SettingsError::Foreign);
        }
        are_changes(changes);
        if has_room(&self.log, changes) {
            self.job = Job::Appending(0);
            return Ok(());
        }
        if words_alive(&self.log, flash, changes) > PAGE_WORDS as u16 {
            return Err(SettingsError::Full);
        }
        match self.log.begin_turn() {
            Ok(()) => {
                self.job = Job::Turning { from: 0, at: 0 };
                Ok(())
            }
            Err(_) => Err(SettingsError::Worn),
        }
    }

    /// Stores several changes, which are in force together: a loss of power leaves all of them or none.
    /// Of one id the last change counts. More than one, or none, take a compaction. It comes back when
    /// all is stored, after at most 513 flash operations; where it is not `Ok` all values are as before.
    pub(crate) fn transaction<F: NorFlash>(
        &mut self,
        flash: &mut F,
        changes: &[Change],
    ) -> Result<(), SettingsError> {
        if let Err(why) = self.begin(flash, changes) {
            return Err(why);
        }
        while self.busy() {
            if self.fails(flash, changes) {
                return Err(SettingsError::Fault);
            }
        }
        Ok(())
    }

    /// Makes a step of changes that are under way, and says whether it failed.
    fn fails<F: NorFlash>(&mut self, flash: &mut F, changes: &[Change]) -> bool {
        match self.step(flash, changes) {
            Work::Failed => true,
            Work::Idle | Work::Working | Work::Stored => false,
        }
    }

    /// Forgets what is under way.
    fn rest<F: NorFlash>(&mut self, flash: &F) {
        if self.busy() {
            self.log = Log::mount(flash);
            self.job = Job::Resting;
        }
    }

    /// Makes the one flash operation that the changes need next, or none where nothing is under way.
    ///
    /// `changes` are those that were begun. `Failed` is answered where the flash answers a fault and
    /// the operation's slot or page does not read as intended, and only there.
    pub(crate) fn step<F: NorFlash>(&mut self, flash: &mut F, changes: &[Change]) -> Work {
        match self.job {
            Job::Resting => Work::Idle,
            Job::Appending(at) => self.append(flash, changes, at),
            Job::Turning { from, at } => self.turn(flash, changes, from, at),
        }
    }

    /// Appends the next word of the change.
    fn append<F: NorFlash>(&mut self, flash: &mut F, changes: &[Change], at: u8) -> Work {
        let [change] = changes else { unreachable!() };
        self.log.begin_append(word_at(change, at));
        match self.log.step(flash) {
            Step::Committed => self.count(change, at),
            Step::Failed => {
                self.job = Job::Resting;
                Work::Failed
            }
            Step::Idle | Step::Moved => unreachable!(),
        }
    }

    /// One word more of the change is there, and with the last one the change is in force.
    fn count(&mut self, change: &Change, at: u8) -> Work {
        let words = size(change);
        if at + 1 < words {
            self.job = Job::Appending(at + 1);
            Work::Working
        } else {
            self.job = Job::Resting;
            Work::Stored
        }
    }

    /// Goes on with a compaction.
    fn turn<F: NorFlash>(&mut self, flash: &mut F, changes: &[Change], from: u32, at: u8) -> Work {
        self.offer_next(flash, changes, from, at);
        match self.log.step(flash) {
            Step::Moved => Work::Working,
            Step::Committed => {
                self.job = Job::Resting;
                Work::Stored
            }
            Step::Failed => {
                self.job = Job::Resting;
                Work::Failed
            }
            Step::Idle => unreachable!(),
        }
    }

    /// Offers a waiting compaction its next word, or its header after the last one.
    fn offer_next<F: NorFlash>(&mut self, flash: &F, changes: &[Change], from: u32, at: u8) {
        if !self.log.wants() {
            return;
        }
        match next_value(&self.log, flash, changes, from) {
            Some(change) => {
                self.log.offer_copy(word_at(&change, at));
                self.job = behind(&change, at);
            }
            None => self.log.seal(),
        }
    }
}

/// A compaction that was given the words of a change up to this one.
fn behind(change: &Change, at: u8) -> Job {
    let id = u32::from(change.id);
    let words = size(change);
    if at + 1 < words {
        Job::Turning {
            from: id,
            at: at + 1,
        }
    } else {
        Job::Turning {
            from: id + 1,
            at: 0,
        }
    }
}

/// Whether changes are one alone, and there is room for its words.
fn has_room(log: &Log, changes: &[Change]) -> bool {
    match changes {
        [change] => has_room_for(log, size(change)),
        _ => false,
    }
}

/// Whether there is room for so many words.
fn has_room_for(log: &Log, words: u8) -> bool {
    if !log.room() {
        return false;
    }
    match log.tail() {
        Some(tail) => tail <= PAGE_WORDS + 1 - words as usize,
        None => false,
    }
}

/// Whether an id has the value already that a change gives it.
fn holds<F: NorFlash>(log: &Log, flash: &F, change: &Change) -> bool {
    let held = value_in(log, flash, change.id);
    match &change.value {
        None => held.is_none(),
        Some(value) => match held {
            Some(held) => held.as_bytes() == value.as_bytes(),
            None => false,
        },
    }
}
