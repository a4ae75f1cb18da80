// Exported from crates/key_reports/src/key_reports.rt by bin/export-rust. Edit that file instead.
//! The debouncer, the held keys and the poller as one value.

use crate::parts::key_reports::keys::{make_for, take_edges};
use crate::parts::debounce::{KeySet, Matrix, Scan};
use crate::parts::layers::{Defaults, Held, KeymapOf, Usages};
use crate::parts::reports::{IdleId, InputReport, Poller, Protocol, Report};
use crate::rattle::alloc::{AllocError, Global};

/// The keys of the device, and what the host was sent of them.
#[derive(Debug)]
pub struct KeyReports {
    matrix: Matrix,
    held: Held,
    poller: Poller,
}

impl KeyReports {
    /// Zeros, where memory waits for a keyboard to start there.
    pub(crate) const UNSTARTED: Self = KeyReports { matrix: Matrix::UNSTARTED, held: Held::UNSTARTED, poller: Poller::UNSTARTED };
}

impl KeyReports {
    /// Every key up, and nothing sent. Takes the memory of the reports that wait, and is refused where
    /// there is none; no other call takes memory.
    pub fn new(alloc: Global) -> Result<KeyReports, AllocError> {
        let poller = Poller::new(alloc)?;
        Ok(KeyReports {
            matrix: Matrix::new(),
            held: Held::new(),
            poller,
        })
    }

    /// Leaves what `new` gives: every key up, nothing sent, nothing waiting, and the idle values of the
    /// start.
    pub fn restart(&mut self) {
        self.matrix = Matrix::new();
        self.held.clear();
        self.poller.reset();
        self.poller.make(self.held.lent(), Protocol::Report);
    }

    /// Takes one scan, one millisecond after the last. The keys that the debounced scan releases are
    /// released, then those that it presses are pressed, each by rising key and with this keymap. The
    /// reports of the protocol whose bytes this changes wait for a poll.
    pub fn scan<D: Defaults>(&mut self, scan: Scan, keymap: &KeymapOf<D>, protocol: Protocol) {
        let flips = self.matrix.feed(&scan);
        if flips.is_empty() {
            self.poller.pass();
        } else {
            self.take(&flips, keymap, protocol);
        }
    }

    /// Takes the keys that a scan changed.
    #[inline(never)]
    fn take<D: Defaults>(&mut self, flips: &KeySet, keymap: &KeymapOf<D>, protocol: Protocol) {
        make_for(&mut self.poller, &self.held, protocol);
        let released = self.matrix.released(flips);
        let pressed = self.matrix.pressed(flips);
        take_edges(&mut self.held, keymap, &released, &pressed);
        self.poller.tick_to(self.held.lent(), protocol);
    }

    /// The answer to a poll of endpoint 1: the report that has waited longest. Where none waits, the
    /// report of the protocol whose bytes are not those last sent, else one whose idle time has passed
    /// since then, or `None`. It then counts as sent.
    pub fn poll(&mut self, protocol: Protocol) -> Option<Report> {
        make_for(&mut self.poller, &self.held, protocol);
        self.poller.poll_made(protocol)
    }

    /// `poll` into a buffer: it writes the report from the start of `report`, and returns how many bytes
    /// it has.
    pub fn poll_into(&mut self, protocol: Protocol, report: &mut [u8; 23]) -> Option<u8> {
        make_for(&mut self.poller, &self.held, protocol);
        self.poller.poll_into(protocol, report)
    }

    /// The usages that the codes of the held keys name.
    pub fn usages(&self) -> Usages {
        self.held.usages()
    }

    /// The words of the boot report now (`InputReport::words`). To ask for them sends nothing.
    pub fn boot(&self) -> [u32; 6] {
        if self.poller.is_made_for(Protocol::Boot) {
            self.poller.made_boot().words()
        } else {
            self.boot_anew()
        }
    }

    /// The words of the report of ID 1 now. To ask for them sends nothing.
    pub fn bitmap(&self) -> [u32; 6] {
        if self.poller.is_made_for(Protocol::Report) {
            self.poller.made_bitmap().words()
        } else {
            self.bitmap_anew()
        }
    }

    /// The words of the report of ID 2 now. To ask for them sends nothing.
    pub fn consumer(&self) -> [u32; 6] {
        if self.poller.is_made_for(Protocol::Report) {
            self.poller.made_consumer().words()
        } else {
            self.consumer_anew()
        }
    }

    /// Sets the idle value of a report, or of all, in units of 4 ms; 0 stands for no repeats (HID 1.11
    /// section 7.2.4). The time that has passed since a report was sent still counts.
    pub fn set_idle(&mut self, id: IdleId, duration: u8) {
        self.poller.set_idle(id, duration);
    }

    /// The idle value of a report, in units of 4 ms; for all reports that of ID 1 (HID 1.11 section
    /// 7.2.3).
    pub fn idle(&self, id: IdleId) -> u8 {
        self.poller.idle(id)
    }

    /// Counts nothing as sent, as at the start, and drops what waits; the keys and the idle values stay.
    pub fn forget_sent(&mut self) {
        self.poller.forget_sent();
    }

    /// Counts nothing as sent, drops what waits, and restores the idle values of the start; the keys
    /// stay.
    pub fn bus_reset(&mut self) {
        self.poller.reset()
    }

    /// The words of the boot report, made of the held keys. Rare.
    #[inline(never)]
    fn boot_anew(&self) -> [u32; 6] {
        InputReport::boot(self.held.lent()).words()
    }

    /// The words of the report of ID 1, made of the held keys. Rare.
    #[inline(never)]
    fn bitmap_anew(&self) -> [u32; 6] {
        InputReport::bitmap(self.held.lent()).words()
    }

    /// The words of the report of ID 2, made of the held keys. Rare.
    #[inline(never)]
    fn consumer_anew(&self) -> [u32; 6] {
        InputReport::consumer(self.held.lent()).words()
    }
}
