// Exported from crates/keymap_store/src/store.rt by bin/export-rust. Edit that file instead.
//! The keymap in RAM and in flash.

use crate::parts::keymap_store::command_word::CommandWord;
use wuzhikar_log::parts::flash_model::NorFlash;
use crate::parts::layers::{Command, Defaults, KeymapOf, Standard};
use wuzhikar_log::parts::page_turnover::{Log, Step};

/// What became of a command that was taken.
#[derive(Clone, Copy, Debug, PartialEq, Eq)]
#[must_use]
pub enum Taken {
    /// It changes nothing, and is done.
    Settled,
    /// It works: it is done at the `work` that answers Settled.
    Working,
}

/// Why a command was not taken.
#[derive(Clone, Copy, Debug, PartialEq, Eq)]
pub enum SubmitRefusal {
    /// Another command works.
    Busy,
    /// Slot 0 of a page is not sound, so nothing is written.
    Unsound,
    /// The active page is full and has the greatest sequence number, 0FFFFFFFh.
    Worn,
}

/// What a call of `work` did.
#[derive(Clone, Copy, Debug, PartialEq, Eq)]
#[must_use]
pub enum Work {
    /// No command works, and no flash operation was made.
    Idle,
    /// One flash operation was made, and the command works on.
    Working,
    /// The command's record is in flash, and the keymap is changed.
    Settled,
    /// The flash answered a fault, and its slot or page does not read as intended. The command is
    /// gone, and the keymap is as before.
    Failed,
}

/// What a store has under way.
#[derive(Clone, Copy, Debug)]
pub enum Job {
    /// Nothing.
    Resting,
    /// The append of a command's record.
    Appending(CommandWord),
    /// A compaction to a page with the entries that differ from the default, which makes room for the
    /// command; those below a place were offered.
    Turning { command: CommandWord, from: u16 },
}

impl Job {
    /// Zeros, where memory waits for a keyboard to start there.
    pub(crate) const UNSTARTED: Self = Job::Resting;
}

/// A keymap in RAM, kept equal to that of a flash's image, with these defaults.
#[derive(Debug)]
pub struct StoreOf<D: Defaults> {
    log: Log,
    keymap: KeymapOf<D>,
    job: Job,
}

impl<D: Defaults> StoreOf<D> {
    /// Zeros, where memory waits for a keyboard to start there.
    pub(crate) const UNSTARTED: Self = StoreOf { log: <Log as wuzhikar_log::calls::Unstarted>::UNSTARTED, keymap: KeymapOf::UNSTARTED, job: Job::UNSTARTED };
}

/// A store with the standard defaults.
pub type Store = StoreOf<Standard>;

impl<D: Defaults> StoreOf<D> {
    /// Reads log and keymap of a flash, and changes nothing.
    pub fn mount<F: NorFlash>(flash: &F) -> StoreOf<D> {
        let log = Log::mount(flash);
        let mut keymap = KeymapOf::standard();
        take_words(&mut keymap, &log, flash);
        StoreOf {
            log,
            keymap,
            job: Job::Resting,
        }
    }

    /// Leaves what `mount` gives on this flash, where the store lies: nothing of it is moved.
    pub fn remount<F: NorFlash>(&mut self, flash: &F) {
        self.log = Log::mount(flash);
        self.job = Job::Resting;
        self.keymap.set_standard();
        take_words(&mut self.keymap, &self.log, flash);
    }

    /// The keymap: that of the flash's image.
    pub fn keymap(&self) -> &KeymapOf<D> {
        &self.keymap
    }

    /// Whether no page of the flash has a header yet: nothing was stored on it since it was erased.
    pub fn is_first_start(&self) -> bool {
        self.log.format().is_none()
    }

    /// Whether a command works.
    pub fn busy(&self) -> bool {
        self.log.busy()
    }

    /// Takes a command. In this order: `Busy` where a command works, `Unsound` where slot 0 of a page
    /// is not sound, Settled at once where the command changes nothing, `Worn` where there is no room
    /// and the active page has the greatest sequence number, and else Working.
    ///
    /// There is room where the active page is of format 2 and its last slot is Free. A command that
    /// works needs one flash operation with room. Without room it needs one for each entry that
    /// differs from the default, two for header and record, and one more where the page after the
    /// active one is not blank: at most 387.
    pub fn submit(&mut self, command: Command) -> Result<Taken, SubmitRefusal> {
        if self.log.busy() {
            return Err(SubmitRefusal::Busy);
        }
        if self.log.usable().is_err() {
            return Err(SubmitRefusal::Unsound);
        }
        // By reference, since it is passed on twice.
        let command = &command;
        if !self.keymap.changes(*command) {
            return Ok(Taken::Settled);
        }
        let command = CommandWord::of(*command);
        if self.log.room() {
            self.log.begin_append(command.word());
            self.job = Job::Appending(command);
        } else {
            match self.log.begin_turn() {
                Ok(()) => {
                    self.job = Job::Turning { command, from: 0 };
                }
                Err(_) => return Err(SubmitRefusal::Worn),
            }
        }
        Ok(Taken::Working)
    }

    /// Makes the one flash operation that the working command needs next, or none where no command
    /// works. The flash has to be the one that the store was mounted on.
    ///
    /// With room the command's record is appended. Without room a compaction comes first, whose copies are
    /// the entries that differ from the default, by rising place, in format 2. `Failed` is answered
    /// where the flash answers a fault and the operation's slot or page does not read as intended, and
    /// only there. Each call that answers Working leaves one operation less to do, and Settled is the
    /// answer to the last one: a command is settled or fails by the 387th call.
    pub(crate) fn work<F: NorFlash>(&mut self, flash: &mut F) -> Work {
        let job = self.job;
        match job {
            Job::Resting => Work::Idle,
            Job::Appending(command) => self.append(flash, command),
            Job::Turning { command, from } => self.turn(flash, command, from),
        }
    }

    /// Appends the record of a command.
    fn append<F: NorFlash>(&mut self, flash: &mut F, command: CommandWord) -> Work {
        self.job = Job::Resting;
        match self.log.step_append(flash) {
            Step::Committed => {
                self.keymap.apply(command.command());
                Work::Settled
            }
            Step::Failed => Work::Failed,
            Step::Idle | Step::Moved => unreachable!(),
        }
    }

    /// Goes on with a compaction; its commit makes room for the command.
    fn turn<F: NorFlash>(&mut self, flash: &mut F, command: CommandWord, from: u16) -> Work {
        match step_turn(&mut self.log, &self.keymap, &mut self.job, flash, from) {
            Step::Moved => Work::Working,
            Step::Committed => {
                self.log.begin_append(command.word());
                self.job = Job::Appending(command);
                Work::Working
            }
            Step::Failed => {
                self.job = Job::Resting;
                Work::Failed
            }
            Step::Idle => unreachable!(),
        }
    }
}

/// Has a compaction look for its next entry from this place on, where the job lies.
#[inline(always)]
fn go_on(job: &mut Job, from: u16) {
    if let Job::Turning { from: place, .. } = job {
        *place = from;
    }
}

/// Makes the next step of a compaction. One that waits is offered the next entry at or after a place that differs from the
/// default, or its commit header where there is none; the job then looks for its next entry behind that one.
#[inline(always)]
fn step_turn<D: Defaults, F: NorFlash>(
    log: &mut Log,
    keymap: &KeymapOf<D>,
    job: &mut Job,
    flash: &mut F,
    from: u16,
) -> Step {
    if !log.wants() {
        return log.step_turn(flash);
    }
    match keymap.next_changed(from) {
        Some((place, command)) => {
            go_on(job, place + 1);
            log.step_copy(flash, command.word())
        }
        None => {
            log.seal();
            log.step_turn(flash)
        }
    }
}

/// Takes the words of a log into the default keymap: it is then that of the flash's image.
fn take_words<D: Defaults, F: NorFlash>(keymap: &mut KeymapOf<D>, log: &Log, flash: &F) {
    let format = log.format();
    for word in log.words(flash) {
        if let Some(command) = command_by_format(format, word) {
            keymap.apply(command);
        }
    }
}

/// The command that a word stands for on a page of this format.
fn command_by_format(format: Option<u8>, word: u32) -> Option<Command> {
    match format {
        Some(1) => Command::from_format_1(word),
        _ => Command::from_word(word),
    }
}

#[allow(unused_imports)]
use wuzhikar_log::calls::LogCalls as _;
