// Exported from crates/page_turnover/src/log.rt by bin/export-rust. Edit that file instead.
//! A log over the pages of a flash.

mod stepping;
mod turning;

use crate::parts::page_turnover::header::{FORMAT, seq_of, word_format};
use crate::parts::page_turnover::reading::{read_headers, tail};
use crate::parts::page_turnover::words::Words;
use crate::parts::flash_model::{NorFlash, PAGE_SLOTS};
pub use stepping::Step;
pub use turning::TurnRefusal;

/// The lowest page whose slot 0 is not sound.
#[derive(Clone, Copy, Debug, PartialEq, Eq)]
pub struct Unsound {
    /// Its number, from 0 on.
    pub page: usize,
}

/// The page that holds the words of the log.
#[derive(Clone, Copy, Debug)]
pub struct ActivePage {
    pub page: u8,
    pub seq: u32,
    /// 1 or 2.
    pub format: u8,
    /// One more than its greatest slot that is not Free.
    pub tail: u16,
}

/// What is known of the page that a compaction writes.
#[derive(Clone, Copy, Debug)]
pub enum Target {
    /// Nothing yet: where it is not blank it has to be erased.
    Unread,
    /// It holds this many copies in its slots from 1 on, and is Free elsewhere.
    Holds(u16),
}

/// What a log has under way.
#[derive(Clone, Copy, Debug)]
pub enum Task {
    /// Nothing.
    Rest,
    /// The append of a word.
    Append(u32),
    /// A compaction that waits for a copy or its commit header.
    Wait(Target),
    /// A compaction that was offered a copy.
    Copy(Target, u32),
    /// A compaction that was offered its commit header.
    Seal(Target),
}

impl Task {
    /// Zeros, where memory waits for a keyboard to start there.
    pub(crate) const UNSTARTED: Self = Task::Copy(Target::Unread, 0);
}

/// A log of words over the pages of a flash.
///
/// A word is appended by `begin_append` and a `step`, where there is `room`. Where there is none, a
/// compaction makes it: `begin_turn`, then for each word that is to stay `offer_copy`, and at the end
/// `seal`, with steps after each of them until the log `wants` the next or, after the commit header, is no
/// longer `busy`. A blank flash has no room either: it needs a compaction and its commit header first, without a
/// copy. A log that is `busy` while `step` answers `Idle` waits for a copy or its commit header.
///
/// Of a flash with one unsound slot 0 (`usable`) the words are read, but nothing is ever written, so
/// no header is lost that a damaged page may have had. No cut and no fault of an operation of a log
/// makes a slot 0 unsound; whoever makes the device has to erase such a page by other means.
///
/// ```rust
/// # #[cfg(feature = "sim")]
/// # {
/// use wuzhikar_log::{Log, SimFlash};
///
/// let flash = SimFlash::blank(2).unwrap();
/// let log = Log::mount(&flash);
/// assert_eq!(log.active(), None);
/// assert_eq!(log.words(&flash).next(), None);
/// # }
/// ```
#[derive(Debug)]
pub struct Log {
    active: Option<ActivePage>,
    unsound: Option<usize>,
    task: Task,
}

impl Log {
    /// Zeros, where memory waits for a keyboard to start there.
    pub(crate) const UNSTARTED: Self = Log { active: None, unsound: None, task: Task::UNSTARTED };
}

impl Log {
    /// Reads the log of a flash, and changes nothing.
    pub fn mount<F: NorFlash>(flash: &F) -> Log {
        let _pages = flash.pages();
        let headers = read_headers(flash);
        let active = match headers.active {
            Some((page, word)) => Some(active_page(flash, page, word)),
            None => None,
        };
        Log {
            active,
            unsound: headers.unsound,
            task: Task::Rest,
        }
    }

    /// Returns the active page and its sequence number of 28 bits, if a page has a header.
    pub fn active(&self) -> Option<(usize, u32)> {
        match self.active {
            Some(active) => Some((active.page as usize, active.seq)),
            None => None,
        }
    }

    /// Returns the format of the active page, 1 or 2, if a page has a header. Only pages of format 2
    /// are written; the words of one of format 1 are read, and the next compaction copies them into format
    /// 2.
    pub fn format(&self) -> Option<u8> {
        match self.active {
            Some(active) => Some(active.format),
            None => None,
        }
    }

    /// Returns whether anything may be written: slot 0 of each page is sound. If not, `Unsound` has
    /// the lowest page where it is not.
    pub fn usable(&self) -> Result<(), Unsound> {
        match self.unsound {
            Some(page) => Err(Unsound { page }),
            None => Ok(()),
        }
    }

    /// Returns whether there is an active page of format 2 whose tail, one more than its greatest slot
    /// that is not Free, is at most 511.
    pub fn room(&self) -> bool {
        match self.active {
            Some(active) => has_room(active),
            None => false,
        }
    }

    /// Returns the tail of the active page: one more than its greatest slot that is not Free, 1 to
    /// 512.
    pub fn tail(&self) -> Option<usize> {
        match self.active {
            Some(active) => Some(active.tail as usize),
            None => None,
        }
    }

    /// Returns whether an append or a compaction is in progress.
    pub fn busy(&self) -> bool {
        match self.task {
            Task::Rest => false,
            Task::Append(_) | Task::Wait(_) | Task::Copy(..) | Task::Seal(_) => true,
        }
    }

    /// **Needs** the flash that the log was mounted on, as the log left it. Nothing checks it: [`FlashLog`](crate::FlashLog) holds both.
    ///
    /// Returns the Good words of slots 1 to 511 of the active page, in rising order of the slots; none
    /// without an active page.
    pub fn words<'a, F: NorFlash>(&self, flash: &'a F) -> Words<'a, F> {
        match self.active {
            Some(active) => Words::of_page(flash, active.page as usize, active.tail),
            None => Words::none(flash),
        }
    }
}

/// Whether a record can be appended to this page.
fn has_room(active: ActivePage) -> bool {
    active.format == FORMAT && active.tail < PAGE_SLOTS as u16
}

/// What a log holds of the active page, which has this header.
fn active_page<F: NorFlash>(flash: &F, page: usize, word: u32) -> ActivePage {
    ActivePage {
        page: page as u8,
        seq: seq_of(word),
        format: word_format(word),
        tail: tail(flash, page),
    }
}
