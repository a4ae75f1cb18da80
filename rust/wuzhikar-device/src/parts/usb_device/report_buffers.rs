// Exported from crates/usb_device/src/report_buffers.rt by bin/export-rust. Edit that file instead.
//! Endpoint 1 behind buffers: reports in packets, and data toggles.

use crate::parts::usb_device::packets::{behind, first_bytes, held};
use crate::parts::usb_device::{Buffers, EpAnswer, PacketSize, Report};
use arrayvec::ArrayVec;

/// The scans, a millisecond each, in which a host that asks takes the packet of a status stage (section 9.2.6.4).
const STATUS_SCANS: u8 = 50;

/// Where the report under way stands.
#[derive(Clone, Copy, PartialEq, Eq)]
pub(crate) enum Course {
    /// None is under way.
    Rests,
    /// It is to be handed over from its first packet on.
    Begins,
    /// Packets of it were handed over.
    Goes,
}

/// What is known of the buffers, and the report under way.
///
/// A change of endpoint 1 is made before the host knows of it. So no packet is handed over until the host has taken the status packet,
/// or has let 50 scans go by: the acknowledgement may be lost, and then the device never knows of it (section 8.5.3.3). Then the host
/// may want either data toggle, and drops a packet that has the other one. So the next report is handed over twice.
///
/// A request that sets the protocol (HID 1.11 section 7.2.6) gives up a report that waits, as it is of the protocol before, and
/// the host may have a packet of it. One of which the host is known to have a packet goes on, as the host's transfer does.
pub struct ReportBuffers {
    size: PacketSize,
    course: Course,
    report: Report,
    rest: Report,
    due: usize,
    again: bool,
    buffered: u8,
    unsure: bool,
    lost: bool,
    is_old: bool,
    protocol: bool,
    waits: u8,
}

/// The scans to be waited behind a status packet, where so many are waited before it.
fn pause(waits: u8) -> u8 {
    if waits == 0 { STATUS_SCANS } else { waits }
}

/// How many buffers there are.
fn room<B: Buffers>(buffers: &B) -> u8 {
    if buffers.has_two() { 2 } else { 1 }
}

/// Whether a SETUP packet is SET_PROTOCOL.
pub(crate) fn sets_protocol(setup: [u8; 8]) -> bool {
    setup[0] == 0x21 && setup[1] == 0x0b
}

/// Whether an answer is the empty packet.
pub(crate) fn is_empty(answer: &EpAnswer) -> bool {
    match answer {
        EpAnswer::Packet(packet) => packet.is_empty(),
        EpAnswer::Ack | EpAnswer::Nak | EpAnswer::Stall => false,
    }
}

impl ReportBuffers {
    /// Empty buffers that wait for nothing, behind a reset of the bus.
    pub fn new(size: PacketSize) -> ReportBuffers {
        ReportBuffers {
            size,
            course: Course::Rests,
            report: ArrayVec::new(),
            rest: ArrayVec::new(),
            due: 0,
            again: false,
            buffered: 0,
            unsure: false,
            lost: false,
            is_old: false,
            protocol: false,
            waits: 0,
        }
    }

    /// The controller empties the buffers, and begins with DATA0: a request that sets endpoint 1 is answered by its status
    /// packet. A report that the host has not whole begins anew, and nothing is handed over until `release` or 50 scans.
    pub fn begin_anew(&mut self) {
        self.unsure = true;
        self.lost = false;
        self.waits = pause(self.waits);
        match self.course {
            Course::Goes => self.course = Course::Begins,
            Course::Rests | Course::Begins => {}
        }
    }

    /// A scan of the matrix, a millisecond after the one before.
    pub fn scan(&mut self) {
        self.waits = self.waits.saturating_sub(1);
    }

    /// The host has taken the status packet: nothing is waited for.
    pub fn release(&mut self) {
        self.waits = 0;
    }

    /// The host has begun anew with DATA0, where the device has: the toggles agree.
    pub fn agree<B: Buffers>(&mut self, buffers: &mut B) {
        buffers.host_began();
        if !self.lost {
            self.unsure = false;
        }
    }

    /// A SETUP packet has come.
    pub fn setup(&mut self, packet: [u8; 8]) {
        self.protocol = sets_protocol(packet);
    }

    /// This was the answer to an IN token of endpoint 0. The empty packet of SET_PROTOCOL sets the protocol, of which the host is to know.
    pub fn answered<B: Buffers>(&mut self, answer: &EpAnswer, buffers: &mut B) {
        if self.is_change(answer) {
            let count = buffers.taken_1();
            self.taken(count);
            self.change(buffers);
            self.wait();
        }
    }

    /// Nothing is handed over until `release` or 50 scans, where nothing was waited for.
    fn wait(&mut self) {
        self.waits = pause(self.waits);
    }

    /// Whether this answer sets the protocol.
    fn is_change(&self, answer: &EpAnswer) -> bool {
        is_empty(answer) && self.protocol
    }

    /// The report under way goes on, and is of the protocol before.
    fn go_on(&mut self) {
        self.is_old = true;
    }

    /// The protocol is set: a report that waits is given up, and one of which the host has a packet goes on.
    fn change<B: Buffers>(&mut self, buffers: &mut B) {
        match self.course {
            Course::Rests => {}
            Course::Begins => self.give_up(buffers),
            Course::Goes => {
                if self.is_begun() {
                    self.go_on();
                } else {
                    self.give_up(buffers);
                }
            }
        }
    }

    /// A report of the protocol before does not begin anew: it is given up.
    pub fn give_up_old<B: Buffers>(&mut self, buffers: &mut B) {
        match self.course {
            Course::Goes => {
                if self.is_old {
                    self.give_up(buffers);
                }
            }
            Course::Rests | Course::Begins => {}
        }
    }

    /// The report under way is given up. Where packets of it were handed over, the toggles may differ.
    fn give_up<B: Buffers>(&mut self, buffers: &mut B) {
        buffers.give_up();
        match self.course {
            Course::Goes => {
                self.unsure = true;
                self.lost = true;
                self.course = Course::Rests;
            }
            Course::Rests | Course::Begins => self.course = Course::Rests,
        }
    }

    /// Whether the host has a packet of the report under way.
    fn is_begun(&self) -> bool {
        !self.again && (self.buffered as usize) < self.count().saturating_sub(self.due)
    }

    /// A reset of the bus. The report under way is dropped, as the host has forgotten what it knew.
    pub fn reset(&mut self) {
        self.course = Course::Rests;
        self.unsure = false;
        self.lost = false;
        self.protocol = false;
        self.waits = 0;
    }

    /// So many packets were taken since this was reported before.
    pub fn taken(&mut self, count: usize) {
        self.buffered = (self.buffered as usize).saturating_sub(count) as u8;
        match self.course {
            Course::Goes => {
                if self.is_over() {
                    self.course = Course::Rests;
                }
            }
            Course::Rests | Course::Begins => {}
        }
    }

    /// Whether the host has all packets of the report under way.
    fn is_over(&self) -> bool {
        self.buffered == 0 && !self.is_more()
    }

    /// Whether packets are still to be handed over, of the report under way.
    fn is_more(&self) -> bool {
        self.due > 0 || self.again
    }

    /// Whether nothing is waited for.
    pub fn is_known(&self) -> bool {
        self.waits == 0
    }

    /// Whether a report is under way.
    pub fn is_under_way(&self) -> bool {
        !matches!(self.course, Course::Rests)
    }

    /// Whether no report is under way.
    pub fn is_free(&self) -> bool {
        match self.course {
            Course::Rests => true,
            Course::Begins | Course::Goes => false,
        }
    }

    /// A report that the device gave is under way. For buffers that are free.
    pub fn begin(&mut self, report: Report) {
        self.report = report;
        self.course = Course::Begins;
    }

    /// Hands over packets of the report under way, while there are free buffers.
    pub fn fill<B: Buffers>(&mut self, buffers: &mut B) {
        match self.course {
            Course::Rests => {}
            Course::Begins => {
                self.first(buffers);
                self.more(buffers);
            }
            Course::Goes => {
                self.more(buffers);
                self.more(buffers);
            }
        }
    }

    /// Hands over the first packet of the report, which is to be handed over twice where the toggles may differ.
    fn first<B: Buffers>(&mut self, buffers: &mut B) {
        self.restart();
        let packet = self.next_packet();
        self.buffered = 1;
        self.course = Course::Goes;
        buffers.input_1(packet);
    }

    /// Hands over another packet of the report, where there is one, and a free buffer.
    fn more<B: Buffers>(&mut self, buffers: &mut B) {
        if self.buffered < room(buffers) && self.is_more() {
            let packet = self.next_packet();
            self.buffered += 1;
            buffers.input_1(packet);
        }
    }

    /// Begins the report: once more, where the toggles may differ.
    fn restart(&mut self) {
        self.rest = held(self.report.as_slice());
        self.due = self.count();
        self.again = self.unsure;
        self.unsure = false;
        self.lost = false;
        self.is_old = false;
    }

    /// How many packets the report has.
    fn count(&self) -> usize {
        usize::from(self.report.len().saturating_sub(1) as u8) / self.size.bytes() + 1
    }

    /// The next packet of the report.
    fn next_packet(&mut self) -> Report {
        self.refill();
        self.take_packet()
    }

    /// Begins the report once more where all of it was handed over.
    fn refill(&mut self) {
        if self.due == 0 {
            self.rest = held(self.report.as_slice());
            self.due = self.count();
            self.again = false;
        }
    }

    /// Takes a packet from what is to be handed over.
    fn take_packet(&mut self) -> Report {
        let size = self.size.bytes();
        let packet = first_bytes(self.rest.as_slice(), size);
        self.rest = behind(self.rest.as_slice(), size);
        self.due = self.due.saturating_sub(1);
        packet
    }
}
