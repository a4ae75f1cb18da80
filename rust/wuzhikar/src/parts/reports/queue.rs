// Exported from crates/reports/src/queue.rt by bin/export-rust. Edit that file instead.
//! The reports that wait to be sent.

use crate::parts::reports::InputReport;
use crate::rattle::circular_buffer::HeapCircularBuffer;
use crate::rattle::alloc::{AllocError, Global};

/// How many reports can wait.
const ROOM: usize = 8;

/// At most eight reports; where one more comes, the oldest is dropped.
#[derive(Debug)]
pub(crate) struct Queue {
    ring: HeapCircularBuffer<InputReport>,
}

impl Queue {
    /// Zeros, where memory waits for a keyboard to start there.
    pub(crate) const UNSTARTED: Self = Queue { ring: HeapCircularBuffer::UNSTARTED };
}

impl Queue {
    /// No report, and room for eight.
    pub(crate) fn new(alloc: Global) -> Result<Queue, AllocError> {
        let ring = HeapCircularBuffer::with_capacity(alloc, ROOM)?;
        Ok(Queue { ring })
    }

    /// Appends a report.
    pub(crate) fn add(&mut self, report: InputReport) {
        self.ring.push_back(report);
    }

    /// Whether no report waits.
    pub(crate) fn is_empty(&self) -> bool {
        self.ring.is_empty()
    }

    /// Takes the report that has waited longest.
    pub(crate) fn pop(&mut self) -> Option<InputReport> {
        self.ring.pop_front()
    }

    /// Drops all reports.
    pub(crate) fn clear(&mut self) {
        self.ring.clear();
    }
}
