// Exported from crates/usb_device/src/forgetting.rt by bin/export-rust. Edit that file instead.
//! Reports without usages, which follow a new protocol.

use crate::parts::usb_device::packets::held;
use crate::parts::usb_device::report_buffers::{is_empty, sets_protocol};
use crate::parts::usb_device::{Endpoints, EpAnswer, Report, ScansMatrix, Works};

/// The bytes of the consumer report.
const CONSUMER_BYTES: usize = 9;

/// The boot report, and both reports of the report protocol, without usages.
const BOOT: [u8; 8] = [0; 8];

const CONSUMER: [u8; 9] = [2, 0, 0, 0, 0, 0, 0, 0, 0];

const KEYS: [u8; 23] = [
    1, 0, 0, 0, 0, 0, 0, 0, 0, 0, 0, 0, 0, 0, 0, 0, 0, 0, 0, 0, 0, 0, 0,
];

/// The reports without usages that are owed to the host.
#[derive(Clone, Copy, PartialEq, Eq)]
pub(crate) enum Owed {
    Nothing,
    /// The boot report.
    Boot,
    /// That of the keys, that of the consumer usages, or first the one and then the other.
    Keys,
    Consumer,
    Both,
}

impl Owed {
    /// What is owed where the protocol is set and reports of these kinds were given.
    fn by(to_boot: bool, keys: bool, consumer: bool) -> Owed {
        match (to_boot, keys, consumer) {
            (true, false, false) => Owed::Nothing,
            (true, _, _) => Owed::Boot,
            (false, true, true) => Owed::Both,
            (false, true, false) => Owed::Keys,
            (false, false, true) => Owed::Consumer,
            (false, false, false) => Owed::Nothing,
        }
    }

    /// The first of the reports.
    fn first(self) -> Option<Report> {
        match self {
            Owed::Nothing => None,
            Owed::Boot => Some(held(&BOOT)),
            Owed::Keys | Owed::Both => Some(held(&KEYS)),
            Owed::Consumer => Some(held(&CONSUMER)),
        }
    }

    /// What is owed behind the first.
    fn rest(self) -> Owed {
        match self {
            Owed::Both => Owed::Consumer,
            Owed::Nothing | Owed::Boot | Owed::Keys | Owed::Consumer => Owed::Nothing,
        }
    }
}

/// What is kept of the calls.
pub(crate) struct Forgets {
    /// Whether the transfer under way sets the protocol, and whether it names the boot protocol.
    sets: bool,
    to_boot: bool,
    /// Whether a report of keys was given since the last reset, and one of consumer usages.
    keys: bool,
    consumer: bool,
    owed: Owed,
}

/// Whether there is a report of consumer usages.
fn is_consumer(report: &Option<Report>) -> bool {
    match report {
        Some(report) => report.len() == CONSUMER_BYTES,
        None => false,
    }
}

/// Whether there is a report of keys.
fn is_keys(report: &Option<Report>) -> bool {
    match report {
        Some(report) => report.len() != CONSUMER_BYTES,
        None => false,
    }
}

impl Forgets {
    /// Nothing has come.
    fn new() -> Forgets {
        Forgets {
            sets: false,
            to_boot: false,
            keys: false,
            consumer: false,
            owed: Owed::Nothing,
        }
    }

    /// A SETUP packet has come.
    fn setup(&mut self, packet: [u8; 8]) {
        self.sets = sets_protocol(packet);
        self.to_boot = packet[2] == 0;
    }

    /// This was the answer to an IN token.
    fn answered(&mut self, answer: &EpAnswer) {
        if is_empty(answer) && self.sets {
            self.owed = Owed::by(self.to_boot, self.keys, self.consumer);
        }
    }

    /// This was the answer to a poll.
    fn polled(&mut self, report: &Option<Report>) {
        self.keys = is_keys(report) || self.keys;
        self.consumer = is_consumer(report) || self.consumer;
        self.owed = self.owed.rest();
    }
}

/// A device whose host holds no usage of the protocol before.
///
/// A new protocol (HID 1.11 section 7.2.6) drops a report that waits, and the host may have one of the protocol before, and take it
/// for one of the new. A key of it that is up again would stay down. So the next polls are answered by the reports of the new
/// protocol without usages, each of a kind that the host may have. All else goes to the device behind.
pub struct Forgetting<E> {
    pub(crate) forgets: Forgets,
    pub(crate) behind: E,
}

impl<E: Endpoints> Forgetting<E> {
    /// A device that starts in the report protocol.
    pub fn new(behind: E) -> Forgetting<E> {
        Forgetting {
            forgets: Forgets::new(),
            behind,
        }
    }
}

impl<E: Endpoints> Endpoints for Forgetting<E> {
    fn setup(&mut self, packet: [u8; 8]) {
        self.forgets.setup(packet);
        self.behind.setup(packet);
    }

    fn out(&mut self, packet: &[u8]) -> EpAnswer {
        self.behind.out(packet)
    }

    fn in_packet(&mut self) -> EpAnswer {
        let answer = self.behind.in_packet();
        self.forgets.answered(&answer);
        answer
    }

    fn poll(&mut self) -> Option<Report> {
        match self.forgets.owed.first() {
            Some(report) => {
                let blank = Some(report);
                self.forgets.polled(&blank);
                blank
            }
            None => {
                let report = self.behind.poll();
                self.forgets.polled(&report);
                report
            }
        }
    }

    fn bus_reset(&mut self) {
        self.forgets = Forgets::new();
        self.behind.bus_reset();
    }
}

impl<E: Works> Works for Forgetting<E> {
    fn work(&mut self) {
        self.behind.work();
    }
}

impl<E: ScansMatrix> ScansMatrix for Forgetting<E> {
    fn scan(&mut self, rows: [u16; 6]) {
        self.behind.scan(rows);
    }
}
