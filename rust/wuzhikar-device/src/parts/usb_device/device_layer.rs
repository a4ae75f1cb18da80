// Exported from crates/usb_device/src/device_layer.rt by bin/export-rust. Edit that file instead.
//! The USB device layer: which answers are its own, and which calls go on to the device behind it.

use crate::parts::usb_device::descriptors::{Data, Descriptors};
use crate::parts::usb_device::request::{Request, Served};
use crate::parts::usb_device::{Change, Endpoint1, Endpoints, EpAnswer, PollAnswer};
use arrayvec::ArrayVec;

/// A read: its bytes, how many were asked for, and how many packets were sent.
#[derive(Debug)]
pub(crate) struct Sending<'a> {
    bytes: Data<'a>,
    asked: u16,
    sent: u16,
}

impl<'a> Sending<'a> {
    /// The next packet, and none where all were sent.
    fn next_packet(&mut self) -> Option<ArrayVec<u8, 8>> {
        let packet = self.bytes.packet_at(self.asked, self.sent);
        if packet.is_some() {
            self.sent += 1;
        }
        packet
    }
}

/// Where the transfer stands.
#[derive(Debug)]
pub(crate) enum Stage<'a> {
    Theirs,
    Sending(Sending<'a>),
    Status(Option<Change>),
    Over,
}

/// The USB device layer. The device behind it is lent to it at each call.
#[derive(Debug)]
pub struct DeviceLayer<'a> {
    lent: Descriptors<'a>,
    endpoint: Endpoint1,
    stage: Stage<'a>,
    due: Option<u8>,
    renewed: bool,
    wakeup: bool,
    suspended: bool,
    woken: bool,
}

/// The stage that a request begins in.
fn first_stage<'a>(served: Option<Served<'a>>, length: u16) -> Stage<'a> {
    match served {
        None => Stage::Theirs,
        Some(Served::Reads(_)) if length == 0 => Stage::Status(None),
        Some(Served::Reads(bytes)) => Stage::Sending(Sending {
            bytes,
            asked: length,
            sent: 0,
        }),
        Some(Served::Sets(change)) => Stage::Status(Some(change)),
    }
}

impl<'a> DeviceLayer<'a> {
    /// The power comes: the device has no address, and is not configured (section 9.1.1.2).
    pub fn new(descriptors: Descriptors<'a>) -> DeviceLayer<'a> {
        DeviceLayer {
            lent: descriptors,
            endpoint: Endpoint1::Off,
            stage: Stage::Theirs,
            due: None,
            renewed: false,
            wakeup: false,
            suspended: false,
            woken: false,
        }
    }

    /// The address that the status packet of the transfer under way brought: the device has it once the host has that packet
    /// (section 9.2.6.3).
    pub fn address_due(&self) -> Option<u8> {
        self.due
    }

    /// Whether the status packet of the transfer under way set endpoint 1, which then begins anew.
    pub fn has_renewed(&self) -> bool {
        self.renewed
    }

    /// What endpoint 1 is.
    pub fn endpoint_1(&self) -> Endpoint1 {
        self.endpoint
    }

    /// Whether the host has enabled remote wakeup (section 9.4.5).
    pub fn may_wake(&self) -> bool {
        self.wakeup
    }

    /// The bus is suspended: it was idle for 3 ms (section 7.1.7.6). Address and configuration stay.
    pub fn suspend(&mut self) {
        self.answer_suspend();
    }

    fn answer_suspend(&mut self) {
        self.suspended = true;
        self.woken = false;
    }

    /// The bus goes on.
    pub fn resume(&mut self) {
        self.answer_resume();
    }

    fn answer_resume(&mut self) {
        self.suspended = false;
    }

    /// Whether to signal a remote wakeup (section 7.1.7.7), where a report waits for the host or not: once in each suspend, if the
    /// host has enabled it.
    pub fn wakes(&mut self, has_report: bool) -> bool {
        self.answer_wakes(has_report)
    }

    fn answer_wakes(&mut self, has_report: bool) -> bool {
        let wakes = self.suspended && !self.woken && self.wakeup && has_report;
        self.woken |= wakes;
        wakes
    }

    /// A SETUP packet of endpoint 0, which ends the transfer before it.
    pub fn setup<E: Endpoints>(&mut self, packet: [u8; 8], behind: &mut E) {
        behind.setup(packet);
        self.begin(packet);
    }

    /// Begins the transfer of a request.
    fn begin(&mut self, packet: [u8; 8]) {
        let request = Request::read(packet);
        self.suspended = false;
        self.stage = first_stage(
            request.served(self.endpoint, self.wakeup, self.lent),
            request.length,
        );
        self.forget();
    }

    /// No status packet of the transfer has come.
    fn forget(&mut self) {
        self.due = None;
        self.renewed = false;
    }

    /// An OUT packet of endpoint 0. An empty one ends a read.
    pub fn out_packet<E: Endpoints>(&mut self, packet: &[u8], behind: &mut E) -> EpAnswer {
        self.answer_out(packet, behind)
    }

    fn answer_out<E: Endpoints>(&mut self, packet: &[u8], behind: &mut E) -> EpAnswer {
        match &self.stage {
            Stage::Theirs => behind.out(packet),
            Stage::Sending(_) if packet.is_empty() => {
                self.stage = Stage::Over;
                EpAnswer::Ack
            }
            Stage::Sending(_) | Stage::Status(_) | Stage::Over => {
                self.stage = Stage::Over;
                EpAnswer::Stall
            }
        }
    }

    /// An IN token of endpoint 0: the answer, and what the controller has to do once it is on the bus.
    pub fn in_packet<E: Endpoints>(&mut self, behind: &mut E) -> (EpAnswer, Option<Change>) {
        self.answer_in(behind)
    }

    fn answer_in<E: Endpoints>(&mut self, behind: &mut E) -> (EpAnswer, Option<Change>) {
        match &mut self.stage {
            Stage::Theirs => (behind.in_packet(), None),
            Stage::Sending(sending) => match sending.next_packet() {
                Some(packet) => (EpAnswer::Packet(packet), None),
                None => {
                    self.stage = Stage::Over;
                    (EpAnswer::Stall, None)
                }
            },
            Stage::Status(change) => {
                let change = *change;
                self.stage = Stage::Over;
                self.follow(change);
                (EpAnswer::Packet(ArrayVec::new()), change)
            }
            Stage::Over => (EpAnswer::Stall, None),
        }
    }

    /// Takes the change of a status stage.
    fn follow(&mut self, change: Option<Change>) {
        match change {
            Some(Change::Endpoint(state)) => {
                self.endpoint = state;
                self.renewed = true;
            }
            Some(Change::Address(address)) => self.due = Some(address),
            Some(Change::Wakeup(on)) => self.wakeup = on,
            None => {}
        }
    }

    /// An IN token of endpoint 1. The device behind is asked only where the endpoint is ready.
    pub fn poll<E: Endpoints>(&mut self, behind: &mut E) -> PollAnswer {
        self.answer_poll(behind)
    }

    fn answer_poll<E: Endpoints>(&mut self, behind: &mut E) -> PollAnswer {
        match self.endpoint {
            Endpoint1::Off => PollAnswer::Nothing,
            Endpoint1::Halted => PollAnswer::Stall,
            Endpoint1::Ready => match behind.poll() {
                Some(report) => PollAnswer::Data(report),
                None => PollAnswer::Nak,
            },
        }
    }

    /// A bus reset: the device has address 0, and is not configured (section 9.1.1.3).
    pub fn bus_reset<E: Endpoints>(&mut self, behind: &mut E) {
        self.answer_reset(behind);
    }

    /// Ends the transfer and the configuration.
    fn answer_reset<E: Endpoints>(&mut self, behind: &mut E) {
        behind.bus_reset();
        self.endpoint = Endpoint1::Off;
        self.stage = Stage::Theirs;
        self.wakeup = false;
        self.suspended = false;
        self.woken = false;
        self.forget();
    }
}
