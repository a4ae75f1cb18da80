// Exported from crates/reports/src/poller.rt by bin/export-rust. Edit that file instead.
//! Which report a poll of the interrupt endpoint sends.

use crate::parts::reports::idle::Idle;
use crate::parts::reports::queue::Queue;
use crate::parts::reports::sent::Sent;
use crate::parts::reports::{IdleId, Input, InputReport, Protocol, Report};
use crate::parts::layers::Usages;
use crate::rattle::alloc::{AllocError, Global};

/// The idle values at the start, in units of 4 ms: 500 ms for ID 1, and no repeats for ID 2.
const IDLE_ONE: u8 = 125;

const IDLE_TWO: u8 = 0;

/// What was made and what was sent last of each report, the reports that wait, and the idle values.
#[derive(Debug)]
pub struct Poller {
    boot: Sent,
    one: Sent,
    two: Sent,
    /// Which of the reports 1 and 2 was sent last.
    sent_last: Option<Input>,
    queue: Queue,
    idle_one: Idle,
    idle_two: Idle,
    /// The protocol whose reports were made last.
    made_for: Protocol,
}

impl Poller {
    /// Zeros, where memory waits for a keyboard to start there.
    pub(crate) const UNSTARTED: Self = Poller { boot: Sent::UNSTARTED, one: Sent::UNSTARTED, two: Sent::UNSTARTED, sent_last: Some(Input::UNSTARTED), queue: Queue::UNSTARTED, idle_one: Idle::UNSTARTED, idle_two: Idle::UNSTARTED, made_for: Protocol::UNSTARTED };
}

impl Poller {
    /// Nothing sent and nothing waiting, and the idle values 125 (500 ms) for ID 1 and 0 (no repeats)
    /// for ID 2. Takes the memory of the queue, and is refused where there is none.
    pub fn new(alloc: Global) -> Result<Poller, AllocError> {
        let queue = Queue::new(alloc)?;
        Ok(Poller {
            boot: Sent::unused(Input::Boot),
            one: Sent::unused(Input::One),
            two: Sent::unused(Input::Two),
            sent_last: None,
            queue,
            idle_one: Idle::of(IDLE_ONE),
            idle_two: Idle::of(IDLE_TWO),
            made_for: Protocol::Report,
        })
    }

    /// Takes the passing of one scan, one millisecond, which found the usages `now` after `before`.
    /// Each report of the protocol whose bytes that changes waits from now on, ID 1 before ID 2. Of
    /// more than eight that wait the oldest are dropped.
    pub fn tick(&mut self, before: &Usages, now: &Usages, protocol: Protocol) {
        self.make(before, protocol);
        self.tick_to(now, protocol);
    }

    /// Takes the passing of one scan, one millisecond, which changed no usage.
    pub fn pass(&mut self) {
        self.grow_older();
    }

    /// Takes the passing of one scan, one millisecond, which found these usages after those that the
    /// bytes were made for. Each report of the protocol whose bytes that changes waits from now on, ID 1
    /// before ID 2. Of more than eight that wait the oldest are dropped.
    pub fn tick_to(&mut self, now: &Usages, protocol: Protocol) {
        self.grow_older();
        self.push_changes(now, protocol);
    }

    fn grow_older(&mut self) {
        self.boot.tick();
        self.one.tick();
        self.two.tick();
    }

    /// Makes the bytes of the protocol's reports for these usages, and lets those wait that are not as
    /// they were made before.
    fn push_changes(&mut self, now: &Usages, protocol: Protocol) {
        match protocol {
            Protocol::Boot => self.boot.turn(InputReport::boot(now), &mut self.queue),
            Protocol::Report => {
                self.one.turn(InputReport::bitmap(now), &mut self.queue);
                self.two.turn(InputReport::consumer(now), &mut self.queue);
            },
        }
    }

    /// Whether the bytes were made for this protocol.
    pub fn is_made_for(&self, protocol: Protocol) -> bool {
        self.made_for == protocol
    }

    /// The bytes of the boot report, as they were made last.
    pub fn made_boot(&self) -> &InputReport {
        self.boot.made()
    }

    /// The bytes of the report of ID 1, as they were made last.
    pub fn made_bitmap(&self) -> &InputReport {
        self.one.made()
    }

    /// The bytes of the report of ID 2, as they were made last.
    pub fn made_consumer(&self) -> &InputReport {
        self.two.made()
    }

    /// Makes the bytes of the protocol's reports for these usages.
    pub fn make(&mut self, usages: &Usages, protocol: Protocol) {
        match protocol {
            Protocol::Boot => self.boot.make(InputReport::boot(usages)),
            Protocol::Report => {
                self.one.make(InputReport::bitmap(usages));
                self.two.make(InputReport::consumer(usages));
            },
        }
        self.made_for = protocol;
    }

    /// The answer to a poll: the report that has waited longest. Where none waits, the report of the
    /// protocol whose bytes are not those last sent; else one whose idle value is not 0 and for which
    /// as long has passed since it was sent; of two the one that was not sent last; else `None`. What
    /// is answered then counts as sent.
    pub fn poll(&mut self, usages: &Usages, protocol: Protocol) -> Option<Report> {
        self.make(usages, protocol);
        self.poll_made(protocol)
    }

    /// `poll` for the usages that the bytes were made for: it looks at no bytes where nothing is due.
    pub fn poll_made(&mut self, protocol: Protocol) -> Option<Report> {
        match self.send(protocol) {
            Some(sent) => Some(sent.report()),
            None => None,
        }
    }

    /// `poll_made` into a buffer: it writes the report from the start of `report`, and returns how many
    /// bytes it has.
    pub fn poll_into(&mut self, protocol: Protocol, report: &mut [u8; 23]) -> Option<u8> {
        match self.send(protocol) {
            Some(sent) => Some(sent.fill(report)),
            None => None,
        }
    }

    /// Sends the report that has waited longest, else what the poll rule sends.
    fn send(&mut self, protocol: Protocol) -> Option<InputReport> {
        if self.queue.is_empty() {
            self.send_due(protocol)
        } else {
            self.send_front()
        }
    }

    /// Sends the report that has waited longest, if one waits.
    fn send_front(&mut self) -> Option<InputReport> {
        match self.queue.pop() {
            Some(front) => {
                self.count_as_sent(front.copy());
                Some(front)
            },
            None => None,
        }
    }

    /// Sends what the poll rule sends where no report waits.
    fn send_due(&mut self, protocol: Protocol) -> Option<InputReport> {
        match self.due(protocol) {
            Some(due) => {
                self.count_as_sent(due.copy());
                Some(due)
            },
            None => None,
        }
    }

    /// What the poll rule sends where no report waits.
    fn due(&self, protocol: Protocol) -> Option<InputReport> {
        match protocol {
            Protocol::Boot => self.due_boot(),
            Protocol::Report => self.due_report(),
        }
    }

    fn due_boot(&self) -> Option<InputReport> {
        if self.boot_is_due() {
            Some(self.boot.made().copy())
        } else {
            None
        }
    }

    fn boot_is_due(&self) -> bool {
        self.boot.is_changed() || self.boot.is_elapsed(&self.idle_one)
    }

    fn due_report(&self) -> Option<InputReport> {
        match self.chosen(self.one.is_changed(), self.two.is_changed()) {
            Some(Input::One) => Some(self.one.made().copy()),
            Some(Input::Two) => Some(self.two.made().copy()),
            Some(Input::Boot) => None,
            None => None,
        }
    }

    /// Of the reports 1 and 2 one that is changed, else one that is elapsed.
    fn chosen(&self, one_changed: bool, two_changed: bool) -> Option<Input> {
        if one_changed || two_changed {
            one_of_two(one_changed, two_changed, self.sent_last)
        } else {
            one_of_two(
                self.one.is_elapsed(&self.idle_one),
                self.two.is_elapsed(&self.idle_two),
                self.sent_last,
            )
        }
    }

    /// Counts a report as sent.
    fn count_as_sent(&mut self, report: InputReport) {
        match report.input() {
            Input::Boot => self.boot.send(report),
            Input::One => {
                self.one.send(report);
                self.sent_last = Some(Input::One);
            },
            Input::Two => {
                self.two.send(report);
                self.sent_last = Some(Input::Two);
            },
        }
    }

    /// Sets the idle value of a report, or of all, in units of 4 ms; 0 stands for no repeats (HID 1.11
    /// section 7.2.4). The time that has passed since a report was sent still counts.
    pub fn set_idle(&mut self, id: IdleId, duration: u8) {
        match id {
            IdleId::All => {
                self.idle_one = Idle::of(duration);
                self.idle_two = Idle::of(duration);
            },
            IdleId::One => self.idle_one = Idle::of(duration),
            IdleId::Two => self.idle_two = Idle::of(duration),
        }
    }

    /// The idle value of a report, in units of 4 ms; for all reports that of ID 1 (HID 1.11 section
    /// 7.2.3).
    pub fn idle(&self, id: IdleId) -> u8 {
        match id {
            IdleId::All | IdleId::One => self.idle_one.value(),
            IdleId::Two => self.idle_two.value(),
        }
    }

    /// Counts nothing as sent, as at the start, and drops what waits; the idle values stay.
    pub fn forget_sent(&mut self) {
        self.clear();
    }

    /// Leaves what `new` gives: nothing counts as sent, nothing waits, and the idle values are those of
    /// the start. Takes no memory.
    pub fn reset(&mut self) {
        self.clear();
        self.idle_one = Idle::of(IDLE_ONE);
        self.idle_two = Idle::of(IDLE_TWO);
    }

    fn clear(&mut self) {
        self.boot.send(InputReport::unused(Input::Boot));
        self.one.send(InputReport::unused(Input::One));
        self.two.send(InputReport::unused(Input::Two));
        self.sent_last = None;
        self.queue.clear();
    }
}

/// Of the reports 1 and 2 one that passes its test; if both do, the one that was not sent last.
fn one_of_two(one: bool, two: bool, sent_last: Option<Input>) -> Option<Input> {
    match (one, two) {
        (true, true) => match sent_last {
            Some(Input::One) => Some(Input::Two),
            _ => Some(Input::One),
        },
        (true, false) => Some(Input::One),
        (false, true) => Some(Input::Two),
        (false, false) => None,
    }
}
