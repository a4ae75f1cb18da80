// Exported from crates/reports/src/sent.rt by bin/export-rust. Edit that file instead.
//! The bytes that one report has, those that were sent last of it, and when.

use crate::parts::reports::idle::Idle;
use crate::parts::reports::queue::Queue;
use crate::parts::reports::{Input, InputReport};

/// The bytes that a report has, those that were sent last of it, and how long ago.
#[derive(Debug)]
pub(crate) struct Sent {
    bytes: InputReport,
    /// The bytes that the report has, as they were made last.
    made: InputReport,
    /// Whether they are not those sent last.
    changed: bool,
    /// The scans since then, counted to 65,535, which is more than any idle value needs.
    age: u16,
}

impl Sent {
    /// Zeros, where memory waits for a keyboard to start there.
    pub(crate) const UNSTARTED: Self = Sent { bytes: InputReport::UNSTARTED, made: InputReport::UNSTARTED, changed: false, age: 0 };
}

impl Sent {
    /// The bytes for no usages, made and sent now.
    pub(crate) fn unused(input: Input) -> Sent {
        Sent {
            bytes: InputReport::unused(input),
            made: InputReport::unused(input),
            changed: false,
            age: 0,
        }
    }

    /// Takes the passing of one scan.
    pub(crate) fn tick(&mut self) {
        self.age = self.age.saturating_add(1);
    }

    /// Takes the bytes that the report has from now on.
    pub(crate) fn make(&mut self, made: InputReport) {
        self.changed = !made.is_same(&self.bytes);
        self.made = made;
    }

    /// Takes the bytes that the report has from now on, which wait where they are not those that it had.
    pub(crate) fn turn(&mut self, now: InputReport, queue: &mut Queue) {
        if !self.made.is_same(&now) {
            queue.add(now.copy());
            self.make(now);
        }
    }

    /// The bytes that the report has.
    pub(crate) fn made(&self) -> &InputReport {
        &self.made
    }

    /// Whether they are not those sent last.
    pub(crate) fn is_changed(&self) -> bool {
        self.changed
    }

    /// Whether the report is to be sent again at this idle value: it is not 0, and as long has passed.
    pub(crate) fn is_elapsed(&self, idle: &Idle) -> bool {
        idle.has_passed(self.age)
    }

    /// Counts these bytes as sent now.
    pub(crate) fn send(&mut self, bytes: InputReport) {
        self.changed = !self.made.is_same(&bytes);
        self.bytes = bytes;
        self.age = 0;
    }
}
