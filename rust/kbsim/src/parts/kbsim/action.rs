// Exported from crates/kbsim/src/action.rt by bin/export-rust. Edit that file instead.
//! The event of a line.

use crate::parts::kbsim::Event;
use crate::parts::kbsim::spare::Spare;
use arrayvec::ArrayVec;
use crate::parts::script::Action;

/// The event of a line of one event, in its place.
pub(crate) fn event_of<'s>(action: &Action<'_>, spare: &'s mut Spare) -> &'s Event {
    match action {
        Action::Scan(scan) => spare.scan(*scan),
        Action::Poll => spare.poll(),
        Action::Setup(packet) => spare.setup(*packet),
        Action::Out(packet) => spare.out_packet(same(packet)),
        Action::In => spare.in_packet(),
        Action::Work => spare.work(),
        Action::WorkFault(mask) => spare.work_fault(mask.mask()),
        Action::Cut => spare.cut(),
        Action::CutWork(mask) => spare.cut_in_work(mask.mask()),
        Action::Reset => spare.bus_reset(),
        Action::Entry(layer, key) => spare.entry(*layer, *key),
        Action::Slot { page, slot } => spare.slot_at(*page, *slot),
        Action::Leds => spare.leds(),
    }
}

/// A packet of the same bytes. It takes no memory.
fn same(packet: &ArrayVec<u8, 8>) -> ArrayVec<u8, 8> {
    let mut copy = ArrayVec::new();
    let _ = copy.try_extend_from_slice(packet.as_slice());
    copy
}
