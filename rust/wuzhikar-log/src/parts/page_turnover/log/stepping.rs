// Exported from crates/page_turnover/src/log/stepping.rt by bin/export-rust. Edit that file instead.
//! The steps of a log: one flash operation each.

use super::{ActivePage, Log, Target, Task};
use crate::parts::page_turnover::attempt::{erase, program};
use crate::parts::page_turnover::header::{FORMAT, header};
use crate::parts::page_turnover::reading::{is_blank, is_free};
use crate::parts::flash_model::{NorFlash, PAGE_SLOTS};

/// What a step did.
#[derive(Clone, Copy, Debug, PartialEq, Eq)]
#[must_use]
pub enum Step {
    /// Nothing is pending, and no operation was made.
    Idle,
    /// An operation was made, and the words are as before.
    Moved,
    /// The record or the header is Good.
    Committed,
    /// The flash answered a fault, and the slot or page does not read as intended. Nothing is under
    /// way any more, and the words are as before.
    Failed,
}

impl Log {
    /// **Needs** the flash that the log was mounted on, as the log left it. Nothing checks it: [`FlashLog`](crate::FlashLog) holds both.
    ///
    /// Makes the one operation that is pending, or none where nothing is.
    ///
    /// The flash has to be the one that the log describes. A compaction first erases its target if that is
    /// not blank, and what is pending stays so. A copy goes to the slot after those made before it,
    /// from slot 1 on. The commit header programs slot 0 with the header of the next sequence number, 1 without
    /// an active page, in format 2, which commits the compaction: the copies are then the words.
    ///
    /// After a fault the slot or the page is read back. Where it reads as intended the operation
    /// counts as done; where it does not, and only there, the answer is `Failed`. The words are then
    /// as before; an append or a compaction has to be begun anew, and a compaction then erases what it wrote.
    pub fn step<F: NorFlash>(&mut self, flash: &mut F) -> Step {
        match self.task {
            Task::Rest | Task::Wait(_) => Step::Idle,
            Task::Append(_) => self.step_append(flash),
            Task::Copy(..) | Task::Seal(_) => self.step_turn(flash),
        }
    }

    /// Makes the append that is under way, as `step` does.
    pub(crate) fn step_append<F: NorFlash>(&mut self, flash: &mut F) -> Step {
        let Task::Append(word) = self.task else {
            unreachable!()
        };
        let Some(active) = self.active else {
            unreachable!()
        };
        if !program(flash, active.page, active.tail, word) {
            return self.fail(flash);
        }
        use_tail(&mut self.active);
        self.task = Task::Rest;
        Step::Committed
    }

    /// Offers the next word to copy to a compaction that wants one and has made fewer than 511 copies, and makes the step:
    /// `offer_copy` and `step` as one call.
    #[inline(always)]
    pub(crate) fn step_copy<F: NorFlash>(&mut self, flash: &mut F, word: u32) -> Step {
        if let Task::Wait(Target::Holds(copied)) = self.task {
            return self.put(flash, copied, word);
        }
        self.offer_copy(word);
        self.step_turn(flash)
    }

    /// Makes the copy or the commit header that a compaction was offered, as `step` does.
    pub(crate) fn step_turn<F: NorFlash>(&mut self, flash: &mut F) -> Step {
        let (target, next) = offer_of(self.task);
        let page = self.target(flash);
        if !is_ready(flash, page, target) {
            if !erase(flash, page) {
                return self.fail(flash);
            }
            self.task = task_of(Target::Holds(0), next);
            return Step::Moved;
        }
        let slot = copies_of(target) + 1;
        match next {
            Some(word) => {
                if !program(flash, page, slot, word) {
                    return self.fail(flash);
                }
                self.task = Task::Wait(Target::Holds(slot));
                Step::Moved
            }
            None => {
                let seq = self.next_seq();
                if !program(flash, page, 0, header(seq)) {
                    return self.fail(flash);
                }
                self.active = Some(ActivePage {
                    page,
                    seq,
                    format: FORMAT,
                    tail: slot,
                });
                self.task = Task::Rest;
                Step::Committed
            }
        }
    }

    /// A copy goes to the slot after those before it.
    #[inline(always)]
    fn put<F: NorFlash>(&mut self, flash: &mut F, copied: u16, word: u32) -> Step {
        let page = self.target(flash);
        if !program(flash, page, copied + 1, word) {
            return self.fail(flash);
        }
        self.task = Task::Wait(Target::Holds(copied + 1));
        Step::Moved
    }

    /// Ends what is under way: its operation does not read as intended.
    fn fail<F: NorFlash>(&mut self, flash: &F) -> Step {
        if let Some(active) = &mut self.active {
            pass_over(flash, active);
        }
        self.task = Task::Rest;
        Step::Failed
    }

    /// The page that a compaction writes.
    fn target<F: NorFlash>(&self, flash: &F) -> u8 {
        let pages = flash.pages();
        match self.active {
            Some(active) => page_after(active.page, pages),
            None => 0,
        }
    }

    /// The sequence number of the next header.
    fn next_seq(&self) -> u32 {
        match self.active {
            Some(active) => active.seq + 1,
            None => 1,
        }
    }
}

/// The page after this one, from the last on to page 0 again.
fn page_after(page: u8, pages: usize) -> u8 {
    let next = page + 1;
    if (next as usize) < pages { next } else { 0 }
}

/// Passes over the tail slot of the active page after a fault, if it is no longer Free.
fn pass_over<F: NorFlash>(flash: &F, active: &mut ActivePage) {
    if active.tail < PAGE_SLOTS as u16
        && !is_free(flash, active.page as usize, active.tail as u32)
    {
        active.tail += 1;
    }
}

/// One slot more of the active page is used.
#[inline(always)]
fn use_tail(active: &mut Option<ActivePage>) {
    if let Some(active) = active {
        active.tail += 1;
    }
}

/// What a compaction was offered: its target, and the word to copy, or none for its commit header.
#[inline(always)]
fn offer_of(task: Task) -> (Target, Option<u32>) {
    match task {
        Task::Copy(target, word) => (target, Some(word)),
        Task::Seal(target) => (target, None),
        Task::Rest | Task::Append(_) | Task::Wait(_) => unreachable!(),
    }
}

/// A compaction to this target that was offered a word to copy, or its commit header.
#[inline(always)]
fn task_of(target: Target, next: Option<u32>) -> Task {
    match next {
        Some(word) => Task::Copy(target, word),
        None => Task::Seal(target),
    }
}

/// How many copies a compaction's target holds.
fn copies_of(target: Target) -> u16 {
    match target {
        Target::Holds(copied) => copied,
        Target::Unread => 0,
    }
}

/// Whether a compaction's target holds its copies, or is blank before the first: else it is erased.
fn is_ready<F: NorFlash>(flash: &F, page: u8, target: Target) -> bool {
    match target {
        Target::Holds(_) => true,
        Target::Unread => is_blank(flash, page as usize),
    }
}
