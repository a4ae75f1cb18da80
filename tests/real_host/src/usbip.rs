// SPDX-License-Identifier: MIT OR Apache-2.0
//! usbip, version 1.1.1 (Linux, Documentation/usb/usbip_protocol.rst): the device's side of it, for one device.
//!
//! A host asks by URBs: a whole control transfer, or a packet of endpoint 1, which waits until there is one.

use crate::on_bus::{Ended, OnBus, Polled, plug};
use std::collections::VecDeque;
use std::io::{Error, ErrorKind, Read, Result, Write};

const CMD_SUBMIT: u32 = 1;
const CMD_UNLINK: u32 = 2;
const RET_SUBMIT: u32 = 3;
const RET_UNLINK: u32 = 4;

const VERSION: u16 = 0x0111;
const OP_IMPORT: u16 = 0x0003;
const OP_DEVLIST: u16 = 0x0005;

/// Errors of an URB, as Linux has them: the transfer was stalled; it was taken back; nobody answered.
const EPIPE: i32 = -32;
const ECONNRESET: i32 = -104;
const EPROTO: i32 = -71;
/// The URB's length is not that of its request.
const EINVAL: i32 = -22;

/// The number of the device to the host, bus 1, device 1, and its name.
pub const DEVICE: u32 = 1 << 16 | 1;
pub const BUS_ID: &str = "1-1";

/// USB_SPEED_FULL.
pub const FULL_SPEED: u32 = 2;

/// How many polls of a host wait at most. (Linux has one.)
const MOST_POLLS: usize = 256;

/// What a host sends.
pub enum Urb {
    Submit { seq: u32, to_host: bool, endpoint: u32, length: usize, setup: [u8; 8], data: Vec<u8> },
    Unlink { seq: u32, which: u32 },
}

fn word(bytes: &[u8], at: usize) -> u32 {
    u32::from_be_bytes([bytes[at], bytes[at + 1], bytes[at + 2], bytes[at + 3]])
}

/// The next URB.
pub fn read_urb(from: &mut impl Read) -> Result<Urb> {
    let mut head = [0; 48];
    from.read_exact(&mut head)?;
    let [command, seq, to_host, endpoint] = [0, 4, 12, 16].map(|at| word(&head, at));
    match command {
        CMD_SUBMIT => {
            let length = word(&head, 24) as usize;
            let mut setup = [0; 8];
            setup.copy_from_slice(&head[40..]);
            if length > 65_536 {
                return Err(malformed(format!("an URB of {length} bytes: 65,536 are the most")));
            }
            let mut data = vec![0; if to_host == 0 { length } else { 0 }];
            from.read_exact(&mut data)?;
            Ok(Urb::Submit { seq, to_host: to_host != 0, endpoint, length, setup, data })
        }
        CMD_UNLINK => Ok(Urb::Unlink { seq, which: word(&head, 20) }),
        _ => Err(malformed(format!("no command of usbip: {command:08x}"))),
    }
}

fn malformed(what: String) -> Error {
    Error::new(ErrorKind::InvalidData, what)
}

/// The answers before the URBs: the list of devices, and the one that is asked for. Whether it was taken.
pub fn greet(socket: &mut (impl Read + Write)) -> Result<bool> {
    let mut head = [0; 8];
    socket.read_exact(&mut head)?;
    let code = u16::from_be_bytes([head[2], head[3]]) & 0xff;
    let mut answer = VERSION.to_be_bytes().to_vec();
    answer.extend(code.to_be_bytes());
    match code {
        OP_DEVLIST => {
            answer.extend([0, 0, 0, 0, 0, 0, 0, 1]);
            answer.extend(shape());
            answer.extend([3, 1, 1, 0]); // the interface: HID, boot, keyboard
        }
        OP_IMPORT => {
            let mut name = [0; 32];
            socket.read_exact(&mut name)?;
            let known = name.starts_with(BUS_ID.as_bytes()) && name[BUS_ID.len()] == 0;
            answer.extend(u32::from(!known).to_be_bytes());
            if known {
                answer.extend(shape());
            }
            socket.write_all(&answer)?;
            return Ok(known);
        }
        _ => return Err(malformed(format!("no request of usbip: {code:04x}"))),
    }
    socket.write_all(&answer)?;
    Ok(false)
}

/// `struct usbip_usb_device`.
fn shape() -> Vec<u8> {
    let mut bytes = Vec::new();
    let mut text = |text: &str, room: usize| {
        bytes.extend(text.bytes().chain(std::iter::repeat(0)).take(room));
    };
    text("/wuzhikar", 256);
    text(BUS_ID, 32);
    for number in [1, 1, FULL_SPEED] {
        bytes.extend(number.to_be_bytes());
    }
    for number in crate::device::about(crate::device::PRODUCT.identity()).numbers {
        bytes.extend(number.to_be_bytes());
    }
    bytes.extend([0, 0, 0, 0, 1, 1]); // class, subclass, protocol, configuration, configurations, interfaces
    bytes
}

/// The device on a wire to a host: what it was asked and has not answered.
pub struct Wire<S> {
    to: S,
    polls: VecDeque<(u32, usize)>,
    /// The packets of the report that the host has not got whole.
    partial: Vec<u8>,
}

impl<S: Write> Wire<S> {
    /// The device is plugged in: a host resets the bus and gives it an address. Neither is told by usbip.
    pub fn plug(to: S, device: &mut dyn OnBus) -> Wire<S> {
        plug(device);
        Wire { to, polls: VecDeque::new(), partial: Vec::new() }
    }

    /// An URB.
    pub fn take(&mut self, urb: Urb, device: &mut dyn OnBus) -> Result<()> {
        match urb {
            Urb::Submit { seq, to_host, endpoint: 0, setup, length, .. } if !fits(setup, to_host, length) => {
                crate::tell(format_args!("an URB of {length} bytes for the request {setup:02x?}"));
                self.submitted(seq, EINVAL, 0, &[])
            }
            Urb::Submit { seq, endpoint: 0, setup, data, .. } => self.control(seq, setup, &data, device),
            Urb::Submit { seq, to_host: true, endpoint: 1, length, .. } => {
                if self.polls.len() >= MOST_POLLS {
                    return Err(malformed(format!("more than {MOST_POLLS} polls wait")));
                }
                self.polls.push_back((seq, length));
                self.poll(device).map(drop)
            }
            Urb::Submit { seq, .. } => self.submitted(seq, EPIPE, 0, &[]),
            Urb::Unlink { seq, which } => {
                let before = self.polls.len();
                self.polls.retain(|poll| poll.0 != which);
                if self.polls.is_empty() {
                    self.partial.clear();
                }
                let status = if self.polls.len() < before { ECONNRESET } else { 0 };
                let mut answer = head(RET_UNLINK, seq);
                answer[20..24].copy_from_slice(&status.to_be_bytes());
                self.to.write_all(&answer)
            }
        }
    }

    /// A control transfer.
    fn control(&mut self, seq: u32, setup: [u8; 8], data: &[u8], device: &mut dyn OnBus) -> Result<()> {
        // Linux asks for 64 bytes of the device descriptor behind a reset, and at no other time.
        if setup == [0x80, 6, 0, 1, 0, 0, 64, 0] {
            self.partial.clear();
            plug(device);
        }
        match device.control(setup, data) {
            Ended::Data(read) => {
                let length = if setup[0] & 0x80 != 0 { read.len() } else { data.len() };
                self.submitted(seq, 0, length, &read)
            }
            Ended::Stall => self.submitted(seq, EPIPE, 0, &[]),
            Ended::Gone => {
                self.submitted(seq, EPROTO, 0, &[])?;
                Err(ErrorKind::ConnectionReset.into())
            }
        }
    }

    /// Polls endpoint 1, where the host waits for a packet. Whether the host polls, and has all that was to be sent.
    pub fn poll(&mut self, device: &mut dyn OnBus) -> Result<bool> {
        while let Some((seq, length)) = self.polls.front().copied() {
            match self.transfer(length, device) {
                Polled::Packet(report) => {
                    let sent = &report[..report.len().min(length)];
                    self.submitted(seq, 0, sent.len(), sent)?;
                }
                Polled::Stall => self.submitted(seq, EPIPE, 0, &[])?,
                Polled::Nak => return Ok(true),
                Polled::Nothing => break,
            }
            self.polls.pop_front();
        }
        Ok(false)
    }

    /// A transfer of up to so many bytes on endpoint 1, which is over at a short packet or when all is there.
    fn transfer(&mut self, length: usize, device: &mut dyn OnBus) -> Polled {
        loop {
            match device.poll() {
                Polled::Packet(packet) => {
                    self.partial.extend_from_slice(&packet);
                    if packet.len() < device.about().packet || self.partial.len() >= length {
                        return Polled::Packet(std::mem::take(&mut self.partial).into_iter().take(length).collect());
                    }
                }
                other => {
                    if other != Polled::Nak {
                        self.partial.clear();
                    }
                    return other;
                }
            }
        }
    }

    fn submitted(&mut self, seq: u32, status: i32, length: usize, data: &[u8]) -> Result<()> {
        let mut answer = head(RET_SUBMIT, seq).to_vec();
        answer[20..24].copy_from_slice(&status.to_be_bytes());
        answer[24..28].copy_from_slice(&(length as u32).to_be_bytes());
        answer.extend(data);
        self.to.write_all(&answer)
    }
}

/// Whether an URB has the direction and the length of its request: wLength, where there are data.
fn fits(setup: [u8; 8], to_host: bool, length: usize) -> bool {
    let wanted = usize::from(u16::from_le_bytes([setup[6], setup[7]]));
    length == wanted && (wanted == 0 || to_host == (setup[0] & 0x80 != 0))
}

fn head(command: u32, seq: u32) -> [u8; 48] {
    let mut bytes = [0; 48];
    bytes[..4].copy_from_slice(&command.to_be_bytes());
    bytes[4..8].copy_from_slice(&seq.to_be_bytes());
    bytes
}

#[cfg(test)]
mod tests {
    use super::*;
    use crate::device::Device;
    use crate::on_bus::scan_of;

    /// What a host gets of an URB: status and data.
    fn ask(wire: &mut Wire<Vec<u8>>, device: &mut Device, urb: Urb) -> Vec<(i32, Vec<u8>)> {
        wire.to.clear();
        wire.take(urb, device).expect("a wire of memory");
        answers(&wire.to)
    }

    fn answers(mut bytes: &[u8]) -> Vec<(i32, Vec<u8>)> {
        let mut all = Vec::new();
        while !bytes.is_empty() {
            let length = if word(bytes, 0) == RET_SUBMIT { word(bytes, 24) as usize } else { 0 };
            let length = length.min(bytes.len() - 48);
            all.push((word(bytes, 20) as i32, bytes[48..48 + length].to_vec()));
            bytes = &bytes[48 + length..];
        }
        all
    }

    fn control(setup: [u8; 8], data: &[u8]) -> Urb {
        let (to_host, length) = (setup[0] & 0x80 != 0, usize::from(setup[6]));
        Urb::Submit { seq: 1, to_host, endpoint: 0, length, setup, data: data.to_vec() }
    }

    #[test]
    fn an_urb_of_another_length_than_its_request_is_refused() {
        let mut device = Device::blank();
        let mut wire = Wire::plug(Vec::new(), &mut device);
        let set = [0x21, 9, 3, 3, 0, 0, 6, 0];
        let urb = |to_host, length| Urb::Submit { seq: 1, to_host, endpoint: 0, length, setup: set, data: vec![3; length] };
        for (to_host, length) in [(false, 5), (false, 7), (false, 0), (true, 6)] {
            assert_eq!(ask(&mut wire, &mut device, urb(to_host, length)), [(EINVAL, vec![])]);
        }
        // The device has not seen them.
        assert_eq!(ask(&mut wire, &mut device, control(set, &[3, 1, 0, 0, 5, 0])), [(0, vec![])]);
    }

    #[test]
    fn a_host_enumerates_types_and_takes_an_urb_back() {
        let mut device = Device::blank();
        let mut wire = Wire::plug(Vec::new(), &mut device);
        let head = ask(&mut wire, &mut device, control([0x80, 6, 0, 1, 0, 0, 64, 0], &[]));
        assert_eq!(head[0].1.len(), 18);
        assert_eq!(ask(&mut wire, &mut device, control([0x80, 6, 0, 6, 0, 0, 10, 0], &[])), [(EPIPE, vec![])]);
        assert_eq!(ask(&mut wire, &mut device, control([0, 9, 1, 0, 0, 0, 0, 0], &[])), [(0, vec![])]);
        let poll = |seq| Urb::Submit { seq, to_host: true, endpoint: 1, length: 32, setup: [0; 8], data: vec![] };
        assert_eq!(ask(&mut wire, &mut device, poll(7)), []);
        assert_eq!(ask(&mut wire, &mut device, Urb::Unlink { seq: 8, which: 7 }), [(ECONNRESET, vec![])]);
        assert_eq!(ask(&mut wire, &mut device, Urb::Unlink { seq: 9, which: 7 }), [(0, vec![])]);
        assert_eq!(ask(&mut wire, &mut device, poll(10)), []);
        (0..5).for_each(|_| device.millisecond(scan_of(&[0])));
        wire.poll(&mut device).expect("a wire of memory");
        let report = answers(&wire.to);
        assert_eq!((report.len(), report[0].0, &report[0].1[..3], report[0].1.len()), (1, 0, &[1, 0, 1][..], 23));
    }
}
