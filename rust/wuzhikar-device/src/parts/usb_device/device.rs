// Exported from crates/usb_device/src/device.rt by bin/export-rust. Edit that file instead.
//! A device behind its USB device layer, with endpoint 1 behind buffers, as one device.

use crate::parts::usb_device::buffers::Buffers;
use crate::parts::usb_device::report_buffers::ReportBuffers;
use crate::parts::usb_device::{Change, DeviceLayer, Endpoint1, Endpoints, EpAnswer, PacketSize, PollAnswer, Report};

/// A device behind its USB device layer, with endpoint 1 behind the buffers of a controller.
pub struct Device<'a, E, B> {
    pub(crate) layer: DeviceLayer<'a>,
    pub(crate) behind: E,
    pub(crate) buffers: B,
    reports: ReportBuffers,
}

/// What a change sets endpoint 1 to.
fn endpoint_set(change: Option<Change>) -> Option<Endpoint1> {
    match change {
        Some(Change::Endpoint(state)) => Some(state),
        Some(Change::Address(_) | Change::Wakeup(_)) | None => None,
    }
}

/// Tells the controller what a status packet sets endpoint 1 to, before the packet is handed over.
fn follow<B: Buffers>(change: Option<Change>, buffers: &mut B, reports: &mut ReportBuffers) {
    match endpoint_set(change) {
        Some(state) => {
            reports.give_up_old(buffers);
            buffers.begin_anew(state);
            reports.begin_anew();
        }
        None => {}
    }
}

/// The report of an answer.
fn report_of(answer: PollAnswer) -> Option<Report> {
    match answer {
        PollAnswer::Data(report) => Some(report),
        PollAnswer::Nak | PollAnswer::Stall | PollAnswer::Nothing => None,
    }
}

impl<'a, E: Endpoints, B: Buffers> Device<'a, E, B> {
    /// The power comes: the device has no address and is not configured, and the buffers are empty.
    pub fn new(layer: DeviceLayer<'a>, behind: E, buffers: B, size: PacketSize) -> Device<'a, E, B> {
        Device {
            layer,
            behind,
            buffers,
            reports: ReportBuffers::new(size),
        }
    }

    /// A scan of the matrix, a millisecond after the one before.
    pub fn scan(&mut self) {
        self.reports.scan();
    }

    /// The host has the status packet of its transfer. Where that set endpoint 1, the host has begun anew. Behind any other transfer
    /// it may have given such a request up, and it stays open which data toggle it wants.
    pub fn is_done(&mut self) {
        self.reports.release();
        if self.layer.has_renewed() {
            self.reports.agree(&mut self.buffers);
        }
    }

    /// The bus is suspended.
    pub fn suspend(&mut self) {
        self.layer.suspend();
    }

    /// The bus goes on.
    pub fn resume(&mut self) {
        self.layer.resume();
    }

    /// Whether to signal a remote wakeup: a report waits for the host, which has enabled it and has suspended the bus; once.
    pub fn wakes(&mut self) -> bool {
        let has_report = self.report_waits();
        self.layer.wakes(has_report)
    }

    /// Whether a report waits for the host.
    fn report_waits(&self) -> bool {
        self.is_ready() && self.reports.is_under_way()
    }

    /// Takes what the host has taken of endpoint 1, and fills its buffers where it is ready and nothing is waited for: with
    /// packets of the report under way, or of the next one that the device behind has.
    ///
    /// Nothing is withheld: behind the call all of a report, or as much as there are buffers, is in them or was just taken,
    /// or the device behind has none.
    pub fn serve_reports(&mut self) {
        let count = self.buffers.taken_1();
        self.reports.taken(count);
        if self.is_ready() && self.reports.is_known() {
            self.ask();
            self.reports.fill(&mut self.buffers);
        }
    }

    /// The address that the status packet of the transfer under way brought.
    pub(crate) fn address_due(&self) -> Option<u8> {
        self.layer.address_due()
    }

    /// Whether endpoint 1 is ready.
    fn is_ready(&self) -> bool {
        match self.layer.endpoint_1() {
            Endpoint1::Ready => true,
            Endpoint1::Off | Endpoint1::Halted => false,
        }
    }

    /// Hands an OUT packet of endpoint 0 to the layer.
    fn take(&mut self, packet: &[u8]) -> EpAnswer {
        self.layer.out_packet(packet, &mut self.behind)
    }

    /// Asks the device behind for a report, where none is under way.
    fn ask(&mut self) {
        if self.reports.is_free() {
            match report_of(self.layer.poll(&mut self.behind)) {
                Some(report) => self.reports.begin(report),
                None => {}
            }
        }
    }
}

impl<'a, E: Endpoints, B: Buffers> Endpoints for Device<'a, E, B> {
    fn setup(&mut self, packet: [u8; 8]) {
        self.layer.setup(packet, &mut self.behind);
        self.reports.setup(packet);
    }

    fn out(&mut self, packet: &[u8]) -> EpAnswer {
        self.take(packet)
    }

    fn in_packet(&mut self) -> EpAnswer {
        let (answer, change) = self.layer.in_packet(&mut self.behind);
        follow(change, &mut self.buffers, &mut self.reports);
        self.reports.answered(&answer, &mut self.buffers);
        answer
    }

    /// None: the reports of the device behind go through the buffers.
    fn poll(&mut self) -> Option<Report> {
        None
    }

    fn bus_reset(&mut self) {
        self.layer.bus_reset(&mut self.behind);
        self.buffers.forget();
        self.reports.reset();
    }
}
