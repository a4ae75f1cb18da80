//! Calls with a condition on their caller that nothing checks, for the crates of this workspace. Written by hand.
//! **Not part of the stable interface.**

use crate::NorFlash;
use crate::parts::page_turnover::{Log, Step, TurnRefusal};

/// Calls of a log. Each names its condition; [`Log`] has calls that check it.
pub trait LogCalls {
    /// **Needs** a log that is not busy, is usable and has room.
    fn begin_append(&mut self, word: u32);
    /// **Needs** a log that is not busy.
    fn begin_turn(&mut self) -> Result<(), TurnRefusal>;
    /// **Needs** a log that wants a copy.
    fn offer_copy(&mut self, word: u32);
    /// **Needs** a log that wants a copy or its commit header.
    fn seal(&mut self);
    /// **Needs** a log with an append under way, on its own flash.
    fn step_append<F: NorFlash>(&mut self, flash: &mut F) -> Step;
    /// **Needs** a log that wants a copy, on its own flash.
    fn step_copy<F: NorFlash>(&mut self, flash: &mut F, word: u32) -> Step;
    /// **Needs** a log whose compaction was offered a copy or its commit header, on its own flash.
    fn step_turn<F: NorFlash>(&mut self, flash: &mut F) -> Step;
}

impl LogCalls for Log {
    fn begin_append(&mut self, word: u32) {
        Log::begin_append(self, word);
    }

    fn begin_turn(&mut self) -> Result<(), TurnRefusal> {
        Log::begin_turn(self)
    }

    fn offer_copy(&mut self, word: u32) {
        Log::offer_copy(self, word);
    }

    fn seal(&mut self) {
        Log::seal(self);
    }

    #[inline(always)]
    fn step_append<F: NorFlash>(&mut self, flash: &mut F) -> Step {
        Log::step_append(self, flash)
    }

    #[inline(always)]
    fn step_copy<F: NorFlash>(&mut self, flash: &mut F, word: u32) -> Step {
        Log::step_copy(self, flash, word)
    }

    #[inline(always)]
    fn step_turn<F: NorFlash>(&mut self, flash: &mut F) -> Step {
        Log::step_turn(self, flash)
    }
}

/// What lies in memory where a value is to be made later: zeros.
pub trait Unstarted {
    /// **Needs** that nothing reads it before it is overwritten.
    const UNSTARTED: Self;
}

impl Unstarted for Log {
    const UNSTARTED: Log = Log::UNSTARTED;
}

/// Calls of a flash in memory that take the stand-in for the source's allocator.
#[cfg(feature = "sim")]
pub trait SimCalls: Sized {
    /// Makes a blank flash: see [`SimFlash::blank`](crate::SimFlash::blank).
    fn new(alloc: crate::rattle::alloc::Global, pages: usize) -> Result<Self, crate::FlashError>;
}

#[cfg(feature = "sim")]
impl SimCalls for crate::SimFlash {
    fn new(alloc: crate::rattle::alloc::Global, pages: usize) -> Result<Self, crate::FlashError> {
        crate::SimFlash::new(alloc, pages)
    }
}
