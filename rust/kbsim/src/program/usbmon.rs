//! Lines of usbmon as text (Linux, Documentation/usb/usbmon.rst).

use std::fmt;
use wuzhikar_hid::Kind;

/// A bus, a device on it and an endpoint of that; with endpoint 0, the device with any of them.
#[derive(Clone, Copy, Debug, PartialEq, Eq)]
pub struct Address {
    bus: u32,
    device: u32,
    endpoint: u32,
}

impl Address {
    /// The address that `BUS:DEVICE` or `BUS:DEVICE:ENDPOINT` says.
    pub fn read(text: &str) -> Result<Address, String> {
        let numbers: Option<Vec<u32>> =
            text.split(':').map(|word| word.parse().ok().filter(|_| !word.starts_with('+'))).collect();
        match numbers.as_deref() {
            Some(&[bus, device]) => Ok(Address { bus, device, endpoint: 0 }),
            Some(&[bus, device, endpoint]) => Ok(Address { bus, device, endpoint }),
            _ => Err("an address is BUS:DEVICE or BUS:DEVICE:ENDPOINT".into()),
        }
    }

    /// The address of a line; `None` if it has none.
    pub fn from_line(line: &[u8]) -> Option<Address> {
        Address::read(std::str::from_utf8(words_of(line).nth(3)?).ok()?.get(3..)?).ok()
    }

    /// The endpoint of both, if one of them holds the other.
    pub fn meet(self, other: Address) -> Option<Address> {
        let is_one = (self.bus, self.device) == (other.bus, other.device);
        match (self.endpoint, other.endpoint) {
            (_, 0) if is_one => Some(self),
            (own, endpoint) if is_one && (own == 0 || own == endpoint) => Some(other),
            _ => None,
        }
    }
}

impl fmt::Display for Address {
    fn fmt(&self, f: &mut fmt::Formatter<'_>) -> fmt::Result {
        write!(f, "{}:{:03}:{}", self.bus, self.device, self.endpoint)
    }
}

/// The words of a line: a tag, a time, the event, the address, and what follows.
fn words_of(line: &[u8]) -> impl Iterator<Item = &[u8]> {
    line.split(|byte| byte.is_ascii_whitespace()).filter(|word| !word.is_empty())
}

/// Whether a line is one of usbmon: its third word is an event, and its fourth an address.
pub fn is_line(line: &[u8]) -> bool {
    if !line.contains(&b':') {
        return false;
    }
    let mut behind = words_of(line).skip(2);
    let event = matches!(behind.next(), Some(b"S" | b"C" | b"E"));
    event && matches!(behind.next(), Some([b'C' | b'Z' | b'I' | b'B', b'i' | b'o', b':', ..]))
}

/// Whether it holds a report of a kind: of an interrupt endpoint, or of a SET_REPORT (HID 1.11, 7.2.2).
pub fn holds_report(line: &[u8], kind: Kind) -> bool {
    if !line.windows(3).any(|three| three == b" = ") {
        return false;
    }
    let is_set = |high: &[u8]| {
        let setup: Vec<&[u8]> = words_of(line).skip(4).take(4).collect();
        matches!(setup.as_slice(), [b"s", b"21", b"09", value] if value.starts_with(high))
    };
    match (words_of(line).nth(3).and_then(|address| address.get(..2)), kind) {
        (Some(b"Ii"), kind) => kind == Kind::Input,
        (Some(b"Io"), kind) => kind == Kind::Output,
        (Some(b"Co"), Kind::Output) => is_set(b"02"),
        (Some(b"Co"), Kind::Feature) => is_set(b"03"),
        _ => false,
    }
}
