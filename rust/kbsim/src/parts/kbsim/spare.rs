// Exported from crates/kbsim/src/spare.rt by bin/export-rust. Edit that file instead.
//! The events of a run, each kind in a place of its own.

use crate::parts::kbsim::Event;
use arrayvec::ArrayVec;
use wuzhikar::parts::layers::{KeyNo, LayerNo};
use crate::parts::world::{Mask, Scan};

/// An event of each kind, made once a run, and lent to the world as the event of a line.
///
/// An event has room for a mask of 4,096 bytes, and to make one can cost as many bytes of zeros. So
/// nothing else in this crate makes one: an event that says more than its kind gets that where it
/// lies.
pub(crate) struct Spare {
    scan: Event,
    setup: Event,
    out_packet: Event,
    in_packet: Event,
    poll: Event,
    work: Event,
    work_fault: Event,
    cut: Event,
    cut_in_work: Event,
    bus_reset: Event,
    entry: Event,
    slot_at: Event,
    leds: Event,
}

impl Spare {
    /// Events without keys, without bytes, and of the first entry and slot.
    pub(crate) fn new() -> Spare {
        Spare {
            scan: Event::Scan(Scan::NONE),
            setup: Event::Setup([0; 8]),
            out_packet: Event::OutPacket(ArrayVec::new()),
            in_packet: Event::InPacket,
            poll: Event::Poll,
            work: Event::Work,
            work_fault: Event::WorkFault(Mask::new()),
            cut: Event::Cut,
            cut_in_work: Event::CutInWork(Mask::new()),
            bus_reset: Event::BusReset,
            entry: Event::Entry(LayerNo::known(0), KeyNo::known(0)),
            slot_at: Event::SlotAt { page: 0, slot: 0 },
            leds: Event::Leds,
        }
    }

    pub(crate) fn scan(&mut self, scan: Scan) -> &Event {
        let Event::Scan(place) = &mut self.scan else {
            unreachable!();
        };
        *place = scan;
        &self.scan
    }

    pub(crate) fn setup(&mut self, packet: [u8; 8]) -> &Event {
        let Event::Setup(place) = &mut self.setup else {
            unreachable!();
        };
        *place = packet;
        &self.setup
    }

    pub(crate) fn out_packet(&mut self, packet: ArrayVec<u8, 8>) -> &Event {
        let Event::OutPacket(place) = &mut self.out_packet else {
            unreachable!();
        };
        *place = packet;
        &self.out_packet
    }

    pub(crate) fn in_packet(&self) -> &Event {
        &self.in_packet
    }

    pub(crate) fn poll(&self) -> &Event {
        &self.poll
    }

    pub(crate) fn work(&self) -> &Event {
        &self.work
    }

    pub(crate) fn work_fault(&mut self, mask: Mask) -> &Event {
        let Event::WorkFault(place) = &mut self.work_fault else {
            unreachable!();
        };
        *place = mask;
        &self.work_fault
    }

    pub(crate) fn cut(&self) -> &Event {
        &self.cut
    }

    pub(crate) fn cut_in_work(&mut self, mask: Mask) -> &Event {
        let Event::CutInWork(place) = &mut self.cut_in_work else {
            unreachable!();
        };
        *place = mask;
        &self.cut_in_work
    }

    pub(crate) fn bus_reset(&self) -> &Event {
        &self.bus_reset
    }

    pub(crate) fn entry(&mut self, layer: LayerNo, key: KeyNo) -> &Event {
        let Event::Entry(its_layer, its_key) = &mut self.entry else {
            unreachable!();
        };
        *its_layer = layer;
        *its_key = key;
        &self.entry
    }

    pub(crate) fn slot_at(&mut self, page: u8, slot: u16) -> &Event {
        let Event::SlotAt {
            page: its_page,
            slot: its_slot,
        } = &mut self.slot_at
        else {
            unreachable!();
        };
        *its_page = page;
        *its_slot = slot;
        &self.slot_at
    }

    pub(crate) fn leds(&self) -> &Event {
        &self.leds
    }
}

#[allow(unused_imports)]
use wuzhikar::calls::Known as _;
