// Exported from crates/usb_device/src/packets.rt by bin/export-rust. Edit that file instead.
//! The packets that data are cut into.

use crate::parts::usb_device::Report;
use arrayvec::ArrayVec;

/// Packet `index` of a transfer that reads these bytes and asked for `asked`.
pub(crate) fn packet_at(bytes: &[u8], asked: u16, index: u16) -> Option<ArrayVec<u8, 8>> {
    let asked = usize::from(asked);
    let sent = &bytes[..bytes.len().min(asked)];
    let start = 8 * usize::from(index);
    if start < sent.len() {
        Some(first_packet(&sent[start..]))
    } else if start == sent.len() && sent.len() < asked {
        Some(ArrayVec::new())
    } else {
        None
    }
}

/// The first 8 of the bytes, or all of fewer.
fn first_packet(bytes: &[u8]) -> ArrayVec<u8, 8> {
    let mut packet = ArrayVec::new();
    let _full = packet.try_extend_from_slice(&bytes[..bytes.len().min(8)]);
    packet
}

/// At most 23 bytes, held.
pub(crate) fn held(bytes: &[u8]) -> Report {
    let mut held = ArrayVec::new();
    let _full = held.try_extend_from_slice(bytes);
    held
}

/// So many of at most 23 bytes, or all of fewer.
pub(crate) fn first_bytes(bytes: &[u8], count: usize) -> Report {
    held(&bytes[..bytes.len().min(count)])
}

/// The bytes behind these.
pub(crate) fn behind(bytes: &[u8], count: usize) -> Report {
    held(&bytes[bytes.len().min(count)..])
}
