// SPDX-License-Identifier: MIT OR Apache-2.0
//! usbredir, protocol 0.7 (spice-space.org): the side of the device, for QEMU's `-device usb-redir`.
//!
//! A host asks by messages: a bus reset, a whole control transfer, and once to receive the packets of endpoint 1, which are
//! pushed from then on. SET_CONFIGURATION and SET_INTERFACE come as messages of their own; SET_ADDRESS doesn't come.

use crate::on_bus::{About, Ended, OnBus, Polled, plug};
use std::io::{Error, ErrorKind, Read, Result, Write};

const HELLO: u32 = 0;
const DEVICE_CONNECT: u32 = 1;
const DEVICE_DISCONNECT: u32 = 2;
const RESET: u32 = 3;
const INTERFACE_INFO: u32 = 4;
const EP_INFO: u32 = 5;
const SET_CONFIGURATION: u32 = 6;
const GET_CONFIGURATION: u32 = 7;
const CONFIGURATION_STATUS: u32 = 8;
const SET_ALT_SETTING: u32 = 9;
const GET_ALT_SETTING: u32 = 10;
const ALT_SETTING_STATUS: u32 = 11;
const START_INTERRUPT: u32 = 15;
const STOP_INTERRUPT: u32 = 16;
const INTERRUPT_STATUS: u32 = 17;
const CANCEL: u32 = 21;
const CONTROL: u32 = 100;
const INTERRUPT: u32 = 103;

/// Statuses.
const SUCCESS: u8 = 0;
const STALL: u8 = 4;
const INVALID: u8 = 2;
/// Nobody answered.
const BROKEN: u8 = 3;

/// What is spoken: the version at connect, the acknowledged disconnect, sizes of packets, ids of 64 bits, long lengths.
const CAPABILITIES: u32 = 1 << 1 | 1 << 3 | 1 << 4 | 1 << 5 | 1 << 6;

const FULL_SPEED: u8 = 1;

pub struct Message {
    kind: u32,
    id: u64,
    data: Vec<u8>,
}

/// The next message. The first one is the only one whose id has 32 bits.
pub fn read_message(from: &mut impl Read, first: bool) -> Result<Message> {
    let mut head = [0; 16];
    from.read_exact(&mut head[..if first { 12 } else { 16 }])?;
    let kind = u32::from_le_bytes([head[0], head[1], head[2], head[3]]);
    let length = u32::from_le_bytes([head[4], head[5], head[6], head[7]]);
    let id = u64::from_le_bytes(head[8..].try_into().unwrap_or_default());
    if length > 65_536 || first != (kind == HELLO) {
        let what = format!("no message of usbredir: type {kind} of {length} bytes");
        return Err(Error::new(ErrorKind::InvalidData, what));
    }
    let mut data = vec![0; length as usize];
    from.read_exact(&mut data)?;
    if first && (data.len() < 68 || data[64] & 0x70 != 0x70) {
        return Err(Error::new(ErrorKind::InvalidData, "a host without ids of 64 bits"));
    }
    Ok(Message { kind, id, data })
}

pub struct Wire<S> {
    to: S,
    receives: bool,
    sent: u64,
    about: About,
}

impl<S: Write> Wire<S> {
    /// The device is plugged in.
    pub fn plug(mut to: S, device: &mut dyn OnBus) -> Result<Wire<S>> {
        let mut hello = b"wuzhikar".to_vec();
        hello.resize(64, 0);
        hello.extend(CAPABILITIES.to_le_bytes());
        to.write_all(&[&HELLO.to_le_bytes()[..], &68u32.to_le_bytes(), &[0; 4], &hello].concat())?;
        plug(device);
        Ok(Wire { to, receives: false, sent: 0, about: device.about() })
    }

    /// The device is unplugged.
    pub fn unplug(&mut self) -> Result<()> {
        self.receives = false;
        self.say(DEVICE_DISCONNECT, 0, &[])
    }

    /// The device is there, behind the hello of the host or plugged in again.
    pub fn connect(&mut self) -> Result<()> {
        self.shape()?;
        let mut about = vec![FULL_SPEED, 0, 0, 0];
        for number in self.about.numbers {
            about.extend(number.to_le_bytes());
        }
        self.say(DEVICE_CONNECT, 0, &about)
    }

    /// A message of the host.
    pub fn take(&mut self, message: Message, device: &mut dyn OnBus) -> Result<()> {
        let Message { kind, id, data } = message;
        match kind {
            HELLO => self.connect(),
            RESET => {
                self.receives = false;
                plug(device);
                Ok(())
            }
            START_INTERRUPT | STOP_INTERRUPT => {
                self.receives = kind == START_INTERRUPT;
                self.say(INTERRUPT_STATUS, id, &[SUCCESS, first(&data)])?;
                self.poll(device).map(drop)
            }
            CONTROL if data.len() >= 10 => self.control(id, &data, device),
            CONTROL => {
                crate::tell(format_args!("a control message of {} bytes", data.len()));
                Ok(())
            }
            INTERRUPT => self.say(INTERRUPT, id, &[first(&data), STALL, 0, 0]),
            CANCEL => Ok(()), // each transfer is over before the next message is read
            _ => self.configure(kind, id, &data, device),
        }
    }

    /// A message that sets or asks the configuration or an alternate setting; any other changes nothing.
    fn configure(&mut self, kind: u32, id: u64, data: &[u8], device: &mut dyn OnBus) -> Result<()> {
        let at = |place: usize| data.get(place).copied().unwrap_or(0);
        match kind {
            SET_CONFIGURATION => {
                self.receives = false;
                let ended = device.control([0, 9, at(0), 0, 0, 0, 0, 0], &[]);
                self.shape()?;
                self.say(CONFIGURATION_STATUS, id, &[status(&ended), at(0)])
            }
            GET_CONFIGURATION => {
                let ended = device.control([0x80, 8, 0, 0, 0, 0, 1, 0], &[]);
                self.say(CONFIGURATION_STATUS, id, &[status(&ended), value(&ended)])
            }
            SET_ALT_SETTING => {
                let ended = device.control([1, 11, at(1), 0, at(0), 0, 0, 0], &[]);
                self.say(ALT_SETTING_STATUS, id, &[status(&ended), at(0), at(1)])
            }
            GET_ALT_SETTING => {
                let ended = device.control([0x81, 10, 0, 0, at(0), 0, 1, 0], &[]);
                self.say(ALT_SETTING_STATUS, id, &[status(&ended), at(0), value(&ended)])
            }
            _ => Ok(()),
        }
    }

    /// `usb_redir_control_packet_header`: endpoint, bRequest, bmRequestType, status, wValue, wIndex, wLength.
    fn control(&mut self, id: u64, data: &[u8], device: &mut dyn OnBus) -> Result<()> {
        let (head, sent) = data.split_at(10);
        let mut setup = [0; 8];
        (setup[0], setup[1]) = (head[2], head[1]);
        setup[2..].copy_from_slice(&head[4..]);
        let wanted = usize::from(u16::from_le_bytes([setup[6], setup[7]]));
        if setup[0] & 0x80 == 0 && sent.len() != wanted {
            crate::tell(format_args!("a message with {} bytes for the request {setup:02x?}", sent.len()));
            let mut answer = head.to_vec();
            (answer[3], answer[8], answer[9]) = (INVALID, 0, 0);
            return self.say(CONTROL, id, &answer);
        }
        let ended = device.control(setup, sent);
        let mut answer = head.to_vec();
        if ended == Ended::Gone {
            (answer[3], answer[8], answer[9]) = (BROKEN, 0, 0);
            self.say(CONTROL, id, &answer)?;
            return Err(ErrorKind::ConnectionReset.into());
        }
        answer[3] = status(&ended);
        let read = if let Ended::Data(read) = ended { read } else { Vec::new() };
        let length = if head[2] & 0x80 != 0 {
            read.len()
        } else if answer[3] == SUCCESS {
            sent.len()
        } else {
            0
        };
        answer[8..].copy_from_slice(&(length as u16).to_le_bytes());
        answer.extend(read);
        self.say(CONTROL, id, &answer)
    }

    /// Polls endpoint 1 for a host that receives its packets. Whether the host does, and has all that was to be sent.
    pub fn poll(&mut self, device: &mut dyn OnBus) -> Result<bool> {
        while self.receives {
            let (status, report) = match device.poll() {
                Polled::Packet(report) => (SUCCESS, report.to_vec()),
                Polled::Stall => {
                    self.receives = false;
                    (STALL, Vec::new())
                }
                Polled::Nak => return Ok(true),
                Polled::Nothing => break,
            };
            let mut packet = vec![0x81, status, report.len() as u8, 0];
            packet.extend(report);
            self.sent += 1;
            self.say(INTERRUPT, self.sent, &packet)?;
        }
        Ok(false)
    }

    /// One interface, HID, boot, keyboard; endpoint 0 in both directions, and endpoint 1 to the host.
    fn shape(&mut self) -> Result<()> {
        let only_first = |value: u8| std::array::from_fn::<u8, 32, _>(|at| if at == 0 { value } else { 0 });
        let interfaces = [only_first(0), only_first(3), only_first(1), only_first(1)].concat();
        self.say(INTERFACE_INFO, 0, &[&1u32.to_le_bytes()[..], &interfaces].concat())?;
        let (mut kinds, mut intervals, mut sizes) = ([255; 32], [0; 32], [0u8; 64]);
        (kinds[0], kinds[16], kinds[17], intervals[17]) = (0, 0, 3, self.about.interval);
        (sizes[0], sizes[32], sizes[34]) = (8, 8, self.about.packet as u8);
        self.say(EP_INFO, 0, &[&kinds[..], &intervals, &[0; 32], &sizes].concat())
    }

    fn say(&mut self, kind: u32, id: u64, data: &[u8]) -> Result<()> {
        let length = (data.len() as u32).to_le_bytes();
        self.to.write_all(&[&kind.to_le_bytes()[..], &length, &id.to_le_bytes(), data].concat())
    }
}

/// The first byte of a message, which names an endpoint.
fn first(data: &[u8]) -> u8 {
    data.first().copied().unwrap_or(0)
}

fn status(ended: &Ended) -> u8 {
    if matches!(ended, Ended::Data(_)) { SUCCESS } else { STALL }
}

fn value(ended: &Ended) -> u8 {
    if let Ended::Data(read) = ended { read.first().copied().unwrap_or(0) } else { 0 }
}

#[cfg(test)]
mod tests {
    use super::*;
    use crate::device::Device;

    /// What is said of a message: type and data.
    fn said(wire: &mut Wire<Vec<u8>>, device: &mut Device, kind: u32, data: &[u8]) -> Vec<(u32, Vec<u8>)> {
        wire.to.clear();
        wire.take(Message { kind, id: 7, data: data.to_vec() }, device).expect("a wire of memory");
        let (mut bytes, mut all) = (&wire.to[..], Vec::new());
        while !bytes.is_empty() {
            let number = |at: usize| u32::from_le_bytes([bytes[at], bytes[at + 1], bytes[at + 2], bytes[at + 3]]);
            let end = 16 + number(4) as usize;
            all.push((number(0), bytes[16..end].to_vec()));
            bytes = &bytes[end..];
        }
        all
    }

    /// A control message, from its SETUP packet and its data.
    fn control(setup: [u8; 8], data: &[u8]) -> Vec<u8> {
        let mut bytes = vec![0, setup[1], setup[0], 0];
        bytes.extend_from_slice(&setup[2..]);
        bytes.extend_from_slice(data);
        bytes
    }

    #[test]
    fn a_host_enumerates_configures_and_gets_packets() {
        let mut device = Device::blank();
        let mut wire = Wire::plug(Vec::new(), &mut device).expect("a wire of memory");
        let kinds: Vec<u32> = said(&mut wire, &mut device, HELLO, &[]).into_iter().map(|(kind, _)| kind).collect();
        assert_eq!(kinds, [INTERFACE_INFO, EP_INFO, DEVICE_CONNECT]);
        let read = said(&mut wire, &mut device, CONTROL, &control([0x80, 6, 0, 1, 0, 0, 18, 0], &[]));
        assert_eq!((read[0].1[3], &read[0].1[8..10], read[0].1.len()), (SUCCESS, &[18, 0][..], 28));
        assert_eq!(said(&mut wire, &mut device, CONTROL, &control([0x80, 6, 0, 6, 0, 0, 10, 0], &[]))[0].1[3], STALL);
        let set = said(&mut wire, &mut device, SET_CONFIGURATION, &[1]);
        assert_eq!(set.last(), Some(&(CONFIGURATION_STATUS, vec![SUCCESS, 1])));
        assert_eq!(said(&mut wire, &mut device, GET_CONFIGURATION, &[]), [(CONFIGURATION_STATUS, vec![SUCCESS, 1])]);
        (0..5).for_each(|_| device.millisecond(crate::on_bus::scan_of(&[0])));
        let packets = said(&mut wire, &mut device, START_INTERRUPT, &[0x81]);
        let lengths: Vec<usize> = packets[1..].iter().map(|(_, data)| data.len() - 4).collect();
        assert_eq!((packets[0].clone(), lengths), ((INTERRUPT_STATUS, vec![SUCCESS, 0x81]), vec![16, 7]));
    }

    #[test]
    fn a_power_loss_inside_a_command_is_reported() {
        let mut device = Device::blank();
        let mut wire = Wire::plug(Vec::new(), &mut device).expect("a wire of memory");
        device.tear(vec![0x0f]);
        wire.to.clear();
        let data = control([0x21, 9, 3, 3, 0, 0, 6, 0], &[3, 1, 0, 0, 5, 0]);
        let error = wire.take(Message { kind: CONTROL, id: 7, data }, &mut device).err().map(|error| error.kind());
        assert_eq!((error, wire.to[16 + 3], wire.to.len()), (Some(ErrorKind::ConnectionReset), BROKEN, 16 + 10));
    }

    #[test]
    fn a_wrong_length_is_refused_and_a_broken_message_too() {
        let mut device = Device::blank();
        let mut wire = Wire::plug(Vec::new(), &mut device).expect("a wire of memory");
        let set = [0x21, 9, 3, 3, 0, 0, 6, 0];
        assert_eq!(said(&mut wire, &mut device, CONTROL, &control(set, &[3, 1]))[0].1[3], INVALID);
        assert_eq!(said(&mut wire, &mut device, CONTROL, &[1, 2, 3]), []);
        assert_eq!(said(&mut wire, &mut device, CONTROL, &control(set, &[3, 1, 0, 0, 5, 0]))[0].1[3], SUCCESS);
        let long = [&CONTROL.to_le_bytes()[..], &70_000u32.to_le_bytes(), &[0; 8]].concat();
        let error = read_message(&mut &long[..], false).err().map(|error| error.to_string());
        assert_eq!(error.as_deref(), Some("no message of usbredir: type 100 of 70000 bytes"));
        assert!(read_message(&mut &long[..12], true).is_err());
    }
}
