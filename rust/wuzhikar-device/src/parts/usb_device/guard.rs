// Exported from crates/usb_device/src/guard.rt by bin/export-rust. Edit that file instead.
//! Which OUT packets a lock and a pace let through.

use crate::parts::usb_device::EpAnswer;

/// What becomes of an OUT packet.
#[derive(Clone, Copy, PartialEq, Eq)]
pub(crate) enum Passage {
    /// It is stalled.
    Refuses,
    /// It is put off.
    Waits,
    /// It goes on to the device behind.
    Passes,
}

/// Lock and pace of feature commands.
pub(crate) struct Guard {
    pace: u16,
    locked: bool,
    /// The transfer is SET_REPORT of the feature report.
    feature: bool,
    /// A command of it came while the lock was set.
    refused: bool,
    /// So many scans still have to come before the next command.
    left: u16,
}

/// Whether a SETUP packet is SET_REPORT of the feature report, ID 3.
fn is_feature(setup: [u8; 8]) -> bool {
    setup[0] == 0x21 && setup[1] == 0x09 && u16::from_le_bytes([setup[2], setup[3]]) == 0x0303
}

/// Whether a packet's operation writes the keymap.
fn writes(packet: &[u8]) -> bool {
    match packet.get(1) {
        Some(operation) => 0 < *operation && *operation < 4,
        None => false,
    }
}

impl Guard {
    /// The lock is off, and the first command waits as long as one behind another.
    pub(crate) fn new(pace: u16) -> Guard {
        Guard {
            pace,
            locked: false,
            feature: false,
            refused: false,
            left: pace,
        }
    }

    /// Sets the lock, or takes it away.
    pub(crate) fn set_locked(&mut self, on: bool) {
        self.locked = on;
    }

    /// A scan has come.
    pub(crate) fn scan(&mut self) {
        self.left = self.left.saturating_sub(1);
    }

    /// A SETUP packet has come.
    pub(crate) fn setup(&mut self, packet: [u8; 8]) {
        self.feature = is_feature(packet);
        self.refused = false;
    }

    /// The bus was reset.
    pub(crate) fn reset(&mut self) {
        self.feature = false;
        self.refused = false;
    }

    /// Whether the transfer was refused.
    pub(crate) fn is_refused(&self) -> bool {
        self.refused
    }

    /// What becomes of an OUT packet.
    pub(crate) fn passage(&self, packet: &[u8]) -> Passage {
        let is_command = self.feature && writes(packet);
        if self.refused || (self.locked && is_command) {
            Passage::Refuses
        } else if is_command && self.left != 0 {
            Passage::Waits
        } else {
            Passage::Passes
        }
    }

    /// The transfer is refused from here on.
    pub(crate) fn refuse(&mut self) {
        self.refused = true;
    }

    /// The device behind gave this answer to an OUT packet.
    pub(crate) fn note(&mut self, packet: &[u8], answer: &EpAnswer) {
        let is_taken = match answer {
            EpAnswer::Ack => true,
            EpAnswer::Nak | EpAnswer::Packet(_) | EpAnswer::Stall => false,
        };
        if is_taken && self.feature && writes(packet) {
            self.left = self.pace;
        }
    }
}
