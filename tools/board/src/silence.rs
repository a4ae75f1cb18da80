// SPDX-License-Identifier: MIT OR Apache-2.0
//! What counts as a silence: the chip's own time, and never the host's, which may have no processor for QEMU.

use crate::chip::Lost;
use crate::machine::{Machine, Threads};
use std::fmt;
use std::time::Instant;

/// Ticks of a millisecond, at 16 MHz.
const MILLISECOND: u64 = 16_000;
/// For so long of its own time a chip may owe an answer.
const OWED: u64 = 3_000 * MILLISECOND;
/// So often nothing may go on while an answer is owed.
const LOOKS: u32 = 20;
/// So many milliseconds of processor QEMU may take for an answer.
const RAN: u64 = 60_000;
/// What takes longer by the host's clock is told.
const LONG: u128 = 3_000;

/// What was waited for in a test.
#[derive(Default)]
pub struct Waits {
    /// The longest wait for an answer, in ticks.
    ticks: u64,
    /// The longest, in milliseconds by the host's clock.
    milliseconds: u128,
    /// Each wait of three seconds by the host's clock.
    long: Vec<String>,
}

/// An answer that is waited for.
pub struct Owed {
    ticks: u64,
    threads: Option<Threads>,
    began: Instant,
    looks: u32,
}

impl Owed {
    pub fn new(machine: &Machine) -> std::io::Result<Owed> {
        Ok(Owed { ticks: machine.ticks()?, threads: None, began: Instant::now(), looks: 0 })
    }

    /// Nothing has come for a while: goes on, or says why nothing will come.
    pub fn look(&mut self, machine: &mut Machine) -> Result<(), Lost> {
        let ticks = machine.ticks()?.saturating_sub(self.ticks);
        let began = self.threads.get_or_insert_with(|| machine.threads());
        let ran = machine.threads().ran.saturating_sub(began.ran);
        self.looks = if machine.rests()? { self.looks + 1 } else { 0 };
        let why = match () {
            () if ticks > OWED => "it runs, and gives none",
            () if self.looks > LOOKS => "it sleeps, and nothing is on its way to it",
            () if ran > RAN => "QEMU ran for a minute of processor",
            () => return Ok(()),
        };
        let registers = machine.monitor("info registers")?;
        Err(Lost::Dead(format!("SILENT: no answer in {} of the chip's own time: {why}; {registers}", own(ticks))))
    }
}

impl Waits {
    /// Whether an answer took three seconds by the host's clock.
    pub fn were_long(&self) -> bool {
        !self.long.is_empty()
    }

    /// The answer came.
    pub fn came(&mut self, owed: &Owed, machine: &Machine) -> std::io::Result<()> {
        let (ticks, took) = (machine.ticks()?.saturating_sub(owed.ticks), owed.began.elapsed().as_millis());
        self.ticks = self.ticks.max(ticks);
        self.milliseconds = self.milliseconds.max(took);
        if let (Some(began), true) = (&owed.threads, took >= LONG) {
            let now = machine.threads();
            let (ran, waited) = (now.ran.saturating_sub(began.ran), now.waited.saturating_sub(began.waited));
            self.long.push(format!(
                "{took} ms, {} of them the chip's own; QEMU's threads ran {ran} ms, waited {waited} ms",
                own(ticks)
            ));
        }
        Ok(())
    }
}

/// Ticks as time.
fn own(ticks: u64) -> String {
    format!("{}.{:02} ms", ticks / MILLISECOND, ticks % MILLISECOND / (MILLISECOND / 100))
}

impl fmt::Display for Waits {
    fn fmt(&self, f: &mut fmt::Formatter<'_>) -> fmt::Result {
        write!(
            f,
            "  longest wait for an answer: {} of the chip's own time, {} ms of the host's",
            own(self.ticks),
            self.milliseconds
        )?;
        self.long.iter().try_for_each(|wait| write!(f, "\n  a host that was slow, not the chip: {wait}"))
    }
}
