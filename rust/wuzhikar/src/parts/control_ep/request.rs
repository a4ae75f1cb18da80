// Exported from crates/control_ep/src/request.rt by bin/export-rust. Edit that file instead.
//! What a SETUP packet asks for.

use crate::parts::control_ep::data::{Descriptor, ReadData};
use crate::parts::control_ep::{DeviceReports, Effect, Why};
use crate::parts::reports::{IdleId, Protocol};

/// The fields of a SETUP packet (USB 2.0 table 9-2).
#[derive(Clone, Copy)]
pub(crate) struct Request {
    /// bmRequestType.
    kind: u8,
    /// bRequest.
    code: u8,
    /// wValue.
    value: u16,
    /// wIndex.
    index: u16,
    /// wLength.
    pub(crate) length: u16,
}

/// The reports that SET_REPORT takes.
#[derive(Clone, Copy, Debug)]
pub(crate) enum HostReport {
    /// The LED byte after its Report ID.
    LedsWithId,
    /// The LED byte alone.
    LedsAlone,
    /// The feature report.
    Feature,
}

/// What a request that is served begins.
#[derive(Clone, Copy)]
pub(crate) enum Transfer {
    /// A read, whose bytes stand beside it.
    Reads,
    /// A report from the host.
    Takes(HostReport),
    /// No data, and this effect.
    Sets(Effect),
}

impl Request {
    /// The fields of a SETUP packet's bytes.
    pub(crate) fn read(setup: &[u8; 8]) -> Request {
        let [
            kind,
            code,
            value_low,
            value_high,
            index_low,
            index_high,
            length_low,
            length_high,
        ] = *setup;
        Request {
            kind,
            code,
            value: u16::from_le_bytes([value_low, value_high]),
            index: u16::from_le_bytes([index_low, index_high]),
            length: u16::from_le_bytes([length_low, length_high]),
        }
    }

    /// The transfer that begins, and the bytes of a read, or why the request is refused. In this order: `UnknownRequest` by
    /// bmRequestType and bRequest, `WrongInterface` by wIndex, but for requests to the device, the
    /// reason of a wValue that names nothing, and `WrongLength` by wLength.
    pub(crate) fn transfer<D: DeviceReports>(
        self,
        device: &D,
        read: &mut ReadData,
    ) -> Result<Transfer, Why> {
        let Some(asked) = self.asked(device, read) else {
            return Err(Why::UnknownRequest);
        };
        if self.kind != 0x80 && self.index != 0 {
            return Err(Why::WrongInterface);
        }
        let transfer = asked?;
        if !transfer.takes_length(self.length) {
            return Err(Why::WrongLength);
        }
        Ok(transfer)
    }

    /// What wValue asks for; none where bmRequestType and bRequest are not served.
    fn asked<D: DeviceReports>(
        self,
        device: &D,
        read: &mut ReadData,
    ) -> Option<Result<Transfer, Why>> {
        match (self.kind, self.code) {
            (0x80, 0x06) => Some(device_descriptor(self.value, read)),
            (0x81, 0x06) => Some(interface_descriptor(self.value, read)),
            (0xA1, 0x01) => Some(get_report(self.value, device, read)),
            (0xA1, 0x02) => Some(get_idle(self.value, device, read)),
            (0xA1, 0x03) => {
                read.copy_byte(protocol_byte(device.protocol()));
                Some(Ok(Transfer::Reads))
            }
            (0x21, 0x09) => Some(set_report(self.value, device.protocol())),
            (0x21, 0x0A) => Some(set_idle(self.value)),
            (0x21, 0x0B) => Some(set_protocol(self.value)),
            _ => None,
        }
    }
}

impl Transfer {
    /// Whether its request takes this wLength: a read takes each, a report from the host its own
    /// length, and a request without data 0.
    fn takes_length(self, length: u16) -> bool {
        match self {
            Transfer::Reads => true,
            Transfer::Takes(report) => usize::from(length) == report.length(),
            Transfer::Sets(_) => length == 0,
        }
    }
}

impl HostReport {
    /// How many bytes the report has.
    pub(crate) fn length(self) -> usize {
        match self {
            HostReport::LedsWithId => 2,
            HostReport::LedsAlone => 1,
            HostReport::Feature => 6,
        }
    }
}

/// GET_DESCRIPTOR of the device (USB 2.0 section 9.4.3).
fn device_descriptor(value: u16, read: &mut ReadData) -> Result<Transfer, Why> {
    match value {
        0x0100 => read.lend(Descriptor::Device),
        0x0200 => read.lend(Descriptor::Configuration),
        _ => return Err(Why::UnknownDescriptor),
    }
    Ok(Transfer::Reads)
}

/// GET_DESCRIPTOR of the interface (HID 1.11 section 7.1.1).
fn interface_descriptor(value: u16, read: &mut ReadData) -> Result<Transfer, Why> {
    match value {
        0x2100 => read.lend(Descriptor::Hid),
        0x2200 => read.lend(Descriptor::Report),
        _ => return Err(Why::UnknownDescriptor),
    }
    Ok(Transfer::Reads)
}

/// GET_REPORT (HID 1.11 section 7.2.1).
fn get_report<D: DeviceReports>(
    value: u16,
    device: &D,
    read: &mut ReadData,
) -> Result<Transfer, Why> {
    match (device.protocol(), value) {
        (Protocol::Report, 0x0101) => read.copy(device.bitmap(), 23),
        (Protocol::Report, 0x0102) => read.copy(device.consumer(), 9),
        (Protocol::Report, 0x0201) => read.copy_first([0x01, device.leds(), 0, 0, 0, 0, 0, 0], 2),
        (Protocol::Boot, 0x0100) => read.copy(device.boot(), 8),
        (Protocol::Boot, 0x0200) => read.copy_byte(device.leds()),
        (_, 0x0303) => {
            let [a, b, c, d, e, f] = device.feature();
            read.copy_first([a, b, c, d, e, f, 0, 0], 6);
        }
        _ => return Err(Why::UnknownReport),
    }
    Ok(Transfer::Reads)
}

/// GET_IDLE (HID 1.11 section 7.2.3).
fn get_idle<D: DeviceReports>(value: u16, device: &D, read: &mut ReadData) -> Result<Transfer, Why> {
    match value {
        0x0000 | 0x0001 => read.copy_byte(device.idle_one()),
        0x0002 => read.copy_byte(device.idle_two()),
        _ => return Err(Why::UnknownReport),
    }
    Ok(Transfer::Reads)
}

/// The byte of a protocol in GET_PROTOCOL (HID 1.11 section 7.2.5).
fn protocol_byte(protocol: Protocol) -> u8 {
    match protocol {
        Protocol::Boot => 0,
        Protocol::Report => 1,
    }
}

/// SET_REPORT (HID 1.11 section 7.2.2).
fn set_report(value: u16, protocol: Protocol) -> Result<Transfer, Why> {
    let report = match (protocol, value) {
        (Protocol::Report, 0x0201) => HostReport::LedsWithId,
        (Protocol::Boot, 0x0200) => HostReport::LedsAlone,
        (_, 0x0303) => HostReport::Feature,
        _ => return Err(Why::UnknownReport),
    };
    Ok(Transfer::Takes(report))
}

/// SET_IDLE (HID 1.11 section 7.2.4).
fn set_idle(value: u16) -> Result<Transfer, Why> {
    let [id, duration] = value.to_le_bytes();
    let id = match id {
        0x00 => IdleId::All,
        0x01 => IdleId::One,
        0x02 => IdleId::Two,
        _ => return Err(Why::UnknownReport),
    };
    Ok(Transfer::Sets(Effect::Idle(id, duration)))
}

/// SET_PROTOCOL (HID 1.11 section 7.2.6).
fn set_protocol(value: u16) -> Result<Transfer, Why> {
    let protocol = match value {
        0x0000 => Protocol::Boot,
        0x0001 => Protocol::Report,
        _ => return Err(Why::BadProtocol),
    };
    Ok(Transfer::Sets(Effect::SetProtocol(protocol)))
}
