// Exported from crates/page_turnover/src/log/turning.rt by bin/export-rust. Edit that file instead.
//! What a log is asked to do.

use super::{Log, Target, Task};
use crate::parts::page_turnover::header::LAST_SEQ;
use crate::parts::flash_model::PAGE_SLOTS;

/// Why no compaction was begun.
#[derive(Clone, Copy, Debug, PartialEq, Eq)]
pub enum TurnRefusal {
    /// Slot 0 of a page is not sound.
    Unsound,
    /// The active page has the greatest sequence number, 0FFFFFFFh.
    Worn,
}

impl Log {
    /// Takes a word to append; the next step programs it.
    pub(crate) fn begin_append(&mut self, word: u32) {
        self.task = Task::Append(word);
    }

    /// Begins a compaction to the page after the active one, or to page 0 without one. The compaction then wants
    /// its copies and its commit header. Refused are first `Unsound` and then `Worn`, and nothing changes.
    pub(crate) fn begin_turn(&mut self) -> Result<(), TurnRefusal> {
        self.may_turn()?;
        self.task = Task::Wait(Target::Unread);
        Ok(())
    }

    /// Whether a compaction may begin, or the first reason why not.
    fn may_turn(&self) -> Result<(), TurnRefusal> {
        if self.unsound.is_some() {
            return Err(TurnRefusal::Unsound);
        }
        match self.active {
            Some(active) if active.seq == LAST_SEQ => Err(TurnRefusal::Worn),
            Some(_) | None => Ok(()),
        }
    }

    /// Whether a compaction is under way, and neither a copy nor its commit header is pending.
    pub fn wants(&self) -> bool {
        match self.task {
            Task::Wait(_) => true,
            Task::Rest | Task::Append(_) | Task::Copy(..) | Task::Seal(_) => false,
        }
    }

    /// Whether a compaction is under way that wants a copy or its commit header and has made fewer than 511 copies,
    /// so that it can take one more.
    pub fn wants_copy(&self) -> bool {
        match self.task {
            Task::Wait(Target::Holds(copied)) => copied < PAGE_SLOTS as u16 - 1,
            Task::Wait(Target::Unread) => true,
            Task::Rest | Task::Append(_) | Task::Copy(..) | Task::Seal(_) => false,
        }
    }

    /// Offers the next word to copy to a compaction that wants one and has made fewer than 511 copies
    /// (`wants_copy`); the next step that does not erase the target programs it.
    pub(crate) fn offer_copy(&mut self, word: u32) {
        if let Task::Wait(target) = self.task {
            self.task = Task::Copy(target, word);
        }
    }

    /// Ends the copies of a compaction that wants one: the header is next, and commits the compaction.
    pub(crate) fn seal(&mut self) {
        if let Task::Wait(target) = self.task {
            self.task = Task::Seal(target);
        }
    }
}
