// Exported from crates/control_ep/src/endpoint.rt by bin/export-rust. Edit that file instead.
//! The control endpoint and the stages of its transfer.

use crate::parts::control_ep::data::ReadData;
use crate::parts::control_ep::report::received_report;
use crate::parts::control_ep::request::{HostReport, Request, Transfer};
use crate::parts::control_ep::{
    DeviceReports, DeviceView, Effect, EpAnswer, InAnswer, OutAnswer, OutStep, Received, Verdict,
    Why,
};

/// Where the transfer stands.
#[derive(Clone, Copy, Debug)]
pub(crate) enum Stage {
    /// No transfer is under way.
    Rest,
    /// A read.
    Sending,
    /// A report is expected.
    Taking(HostReport),
    /// A feature command works.
    Waiting,
    /// The status packet is due, with this effect.
    Status(Effect),
    /// A packet was stalled, and so is each further one.
    Stalled(Why),
}

impl Stage {
    /// Zeros, where memory waits for a keyboard to start there.
    pub(crate) const UNSTARTED: Self = Stage::Status(Effect::Idle(crate::parts::reports::IdleId::All, 0));
}

/// The control endpoint: the stage of the transfer on endpoint 0. What a read sends stands beside the
/// stage, so that no call moves it.
#[derive(Debug)]
pub struct ControlEp {
    stage: Stage,
    read: ReadData,
}

impl ControlEp {
    /// Zeros, where memory waits for a keyboard to start there.
    pub(crate) const UNSTARTED: Self = ControlEp { stage: Stage::UNSTARTED, read: ReadData::UNSTARTED };
}

/// The stage that a transfer begins in.
fn first_stage(transfer: Transfer, length: u16, read: &mut ReadData) -> Stage {
    match transfer {
        Transfer::Reads if length == 0 => Stage::Status(Effect::Nothing),
        Transfer::Reads => {
            read.begin(length);
            Stage::Sending
        }
        Transfer::Takes(report) => Stage::Taking(report),
        Transfer::Sets(effect) => Stage::Status(effect),
    }
}

impl ControlEp {
    /// Makes an endpoint at its start: no transfer is under way, and an IN or OUT packet is answered by
    /// `Stall(WrongStage)` until a SETUP packet comes.
    pub fn new() -> ControlEp {
        ControlEp {
            stage: Stage::Rest,
            read: ReadData::new(),
        }
    }

    /// Takes a SETUP packet of 8 bytes (USB 2.0 sections 8.5.3 and 9.3), which is always acknowledged and
    /// ends the transfer under way, also one that waits for a command. What is read is what `view` has
    /// now. A request that is refused leaves the new transfer stalled, by the first of these that holds:
    /// `UnknownRequest` where bmRequestType and bRequest are not served; `WrongInterface` where wIndex is
    /// not 0, but for requests to the device; `UnknownDescriptor`, `UnknownReport` or `BadProtocol` where
    /// wValue names none; `WrongLength` where wLength is not the report's length in SET_REPORT, or not 0
    /// in SET_IDLE and SET_PROTOCOL.
    pub fn setup(&mut self, setup: [u8; 8], view: &DeviceView) {
        self.setup_from(&setup, view);
    }

    /// Takes a SETUP packet as `setup` does, where it lies, for a device that is asked for what is read, and
    /// for nothing else.
    pub fn setup_from<D: DeviceReports>(&mut self, setup: &[u8; 8], device: &D) {
        self.begin(setup, device);
    }

    /// Takes an IN packet (USB 2.0 section 8.5.3): the next data packet of at most 8 bytes, the empty
    /// packet of the status stage with what it brings about, `Nak` while the transfer's command works, or
    /// a `Stall`, which leaves the transfer stalled: for the reason of a transfer that is stalled already
    /// (`FlashFault` where its command failed), and with `WrongStage` where no IN packet is due.
    ///
    /// The answer is given at the token, and its effect with it: where a controller is handed packets
    /// before they are asked for, the call is made when the packet is taken.
    pub fn in_packet(&mut self) -> (EpAnswer, Effect) {
        let mut packet = [0; 8];
        let (answer, effect) = self.in_packet_into(&mut packet);
        (answer.with(packet), effect)
    }

    /// Takes an IN packet as `in_packet` does, and writes its bytes into `packet`, from the start. The
    /// answer says how many; what stands after them, and in a `packet` that no data packet answers, means
    /// nothing.
    pub fn in_packet_into(&mut self, packet: &mut [u8; 8]) -> (InAnswer, Effect) {
        self.answer_in(packet)
    }

    /// Takes an OUT packet (USB 2.0 section 8.5.3): an output report is taken, a feature report is offered
    /// and changes nothing before its verdict, and an empty packet ends a read. Any other packet is
    /// answered by a `Stall`, which leaves the transfer stalled: where a report is due, in this order,
    /// with `ShortData` and `LongData` for another length than wLength, and `UnknownReport` for another
    /// Report ID; for the reason of a transfer that is stalled already; else with `WrongStage`.
    pub fn out(&mut self, packet: &[u8]) -> OutStep {
        self.received(packet).step()
    }

    /// Takes an OUT packet as `out` does, and answers in fewer bytes.
    pub(crate) fn received(&mut self, packet: &[u8]) -> Received {
        self.answer_out(packet)
    }

    /// Answers the packet that `out` has just offered, and is to be called next after the offer. `Done`
    /// and `Working` are `Ack`, `Busy` is `Nak` and leaves the report to be sent again, and `Refused` is a
    /// `Stall` with its reason, which leaves the transfer stalled. Where no feature report is due the
    /// verdict is out of place: a `Stall` with the reason of a transfer that is stalled already, else with
    /// `WrongStage`, which stalls the transfer.
    pub fn verdict(&mut self, verdict: Verdict) -> EpAnswer {
        self.judged(verdict).answer()
    }

    /// Answers the packet that `received` has just offered, as `verdict` does, in fewer bytes.
    pub(crate) fn judged(&mut self, verdict: Verdict) -> OutAnswer {
        self.apply_verdict(verdict)
    }

    /// Tells that the command at work is stored: the status packet of its transfer is due, if the transfer
    /// still waits for it. Any other transfer stays as it is.
    pub fn settle(&mut self) {
        if let Stage::Waiting = self.stage {
            self.stage = Stage::Status(Effect::Nothing);
        }
    }

    /// Tells that the command at work has failed: its transfer is stalled with `FlashFault`, if it still
    /// waits for it. Any other transfer stays as it is.
    pub fn fail(&mut self) {
        if let Stage::Waiting = self.stage {
            self.stage = Stage::Stalled(Why::FlashFault);
        }
    }

    /// Takes a bus reset (USB 2.0 section 7.1.7.5): no transfer is under way, as in an endpoint at its
    /// start.
    pub fn reset(&mut self) {
        self.stage = Stage::Rest;
    }

    /// Begins the transfer that a SETUP packet asks for, or stalls it.
    fn begin<D: DeviceReports>(&mut self, setup: &[u8; 8], device: &D) {
        let request = Request::read(setup);
        self.stage = match request.transfer(device, &mut self.read) {
            Ok(transfer) => first_stage(transfer, request.length, &mut self.read),
            Err(why) => Stage::Stalled(why),
        };
    }

    /// The answer to an IN packet in this stage, and its effect.
    fn answer_in(&mut self, packet: &mut [u8; 8]) -> (InAnswer, Effect) {
        match self.stage {
            Stage::Sending => match self.read.next_packet(packet) {
                Some(length) => (InAnswer::Packet(length), Effect::Nothing),
                None => self.refuse_in(),
            },
            Stage::Status(effect) => {
                self.stage = Stage::Rest;
                (InAnswer::Packet(0), effect)
            }
            Stage::Waiting => (InAnswer::Nak, Effect::Nothing),
            Stage::Stalled(why) => (InAnswer::Stall(why), Effect::Nothing),
            Stage::Rest | Stage::Taking(_) => self.refuse_in(),
        }
    }

    /// Stalls the transfer where no IN packet is due.
    fn refuse_in(&mut self) -> (InAnswer, Effect) {
        self.stage = Stage::Stalled(Why::WrongStage);
        (InAnswer::Stall(Why::WrongStage), Effect::Nothing)
    }

    /// What an OUT packet comes to in this stage.
    fn answer_out(&mut self, packet: &[u8]) -> Received {
        match self.stage {
            Stage::Sending if packet.is_empty() => {
                self.stage = Stage::Rest;
                Received::Answered(OutAnswer::Ack)
            }
            Stage::Taking(report) => match received_report(report, packet) {
                Ok(Received::Leds(leds)) => {
                    self.stage = Stage::Status(Effect::Nothing);
                    Received::Leds(leds)
                }
                Ok(step) => step,
                Err(why) => Received::Answered(self.stall(why)),
            },
            Stage::Stalled(why) => Received::Answered(OutAnswer::Stall(why)),
            Stage::Rest | Stage::Sending | Stage::Status(_) | Stage::Waiting => Received::Answered(
                self.stall(Why::WrongStage),
            ),
        }
    }

    /// The answer of a verdict in this stage.
    fn apply_verdict(&mut self, verdict: Verdict) -> OutAnswer {
        match self.stage {
            Stage::Taking(HostReport::Feature) => self.apply_report_verdict(verdict),
            Stage::Stalled(why) => OutAnswer::Stall(why),
            _ => self.stall(Why::WrongStage),
        }
    }

    /// The answer of a verdict on a feature report that is due.
    fn apply_report_verdict(&mut self, verdict: Verdict) -> OutAnswer {
        match verdict {
            Verdict::Done => {
                self.stage = Stage::Status(Effect::Nothing);
                OutAnswer::Ack
            }
            Verdict::Working => {
                self.stage = Stage::Waiting;
                OutAnswer::Ack
            }
            Verdict::Busy => OutAnswer::Nak,
            Verdict::Refused(why) => self.stall(why),
        }
    }

    /// Stalls the transfer.
    fn stall(&mut self, why: Why) -> OutAnswer {
        self.stage = Stage::Stalled(why);
        OutAnswer::Stall(why)
    }
}
