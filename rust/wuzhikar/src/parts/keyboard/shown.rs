// Exported from crates/keyboard/src/shown.rt by bin/export-rust. Edit that file instead.
//! What a SETUP packet is answered from: the keyboard without its endpoint.

use crate::parts::control_ep::DeviceReports;
use crate::parts::key_reports::{IdleId, KeyReports, Protocol};
use crate::parts::keymap_store::StoreOf;
use crate::parts::layers::{Defaults, KeyNo, LayerNo};

/// The parts of a keyboard that a SETUP packet is answered from.
pub(crate) struct Shown<'a, D: Defaults> {
    pub(crate) keys: &'a KeyReports,
    pub(crate) store: &'a StoreOf<D>,
    pub(crate) protocol: Protocol,
    pub(crate) leds: u8,
    pub(crate) layer: LayerNo,
    pub(crate) key: KeyNo,
}

impl<'a, D: Defaults> DeviceReports for Shown<'a, D> {
    fn protocol(&self) -> Protocol {
        self.protocol
    }

    fn idle_one(&self) -> u8 {
        self.keys.idle(IdleId::One)
    }

    fn idle_two(&self) -> u8 {
        self.keys.idle(IdleId::Two)
    }

    fn leds(&self) -> u8 {
        self.leds
    }

    fn feature(&self) -> [u8; 6] {
        let code = self.store.keymap().get(self.layer, self.key);
        let [low, high] = code.bits().to_le_bytes();
        [3, 0, self.layer.number(), self.key.number(), low, high]
    }

    fn bitmap(&self) -> [u32; 6] {
        self.keys.bitmap()
    }

    fn consumer(&self) -> [u32; 6] {
        self.keys.consumer()
    }

    fn boot(&self) -> [u32; 6] {
        self.keys.boot()
    }
}
