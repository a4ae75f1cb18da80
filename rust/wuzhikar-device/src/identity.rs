// SPDX-License-Identifier: MIT OR Apache-2.0

//! What a maker chooses: numbers, names, and the way endpoint 1 is polled. From these come the descriptors that differ
//! from the keyboard's own.

use crate::{Descriptors, PacketSize};
use wuzhikar::usb::{CONFIGURATION_DESCRIPTOR, DEVICE_DESCRIPTOR, HID_DESCRIPTOR};

/// Bit 5 of bmAttributes.
const REMOTE_WAKEUP: u8 = 0x20;

/// The indices of the strings.
const MANUFACTURER: u8 = 1;
const PRODUCT: u8 = 2;
const SERIAL_NUMBER: u8 = 3;

impl PacketSize {
    /// Returns the size of so many bytes (wMaxPacketSize, USB 2.0 section 9.6.6), or `None` if that is none of 8, 16, 32, 64.
    /// Some BIOSes take no more than 16.
    pub const fn from_bytes(bytes: usize) -> Option<PacketSize> {
        match bytes {
            8 => Some(PacketSize::Bytes8),
            16 => Some(PacketSize::Bytes16),
            32 => Some(PacketSize::Bytes32),
            64 => Some(PacketSize::Bytes64),
            _ => None,
        }
    }

    /// wMaxPacketSize.
    const fn byte(self) -> u8 {
        match self {
            PacketSize::Bytes8 => 8,
            PacketSize::Bytes16 => 16,
            PacketSize::Bytes32 => 32,
            PacketSize::Bytes64 => 64,
        }
    }
}

/// How often a host of full speed is to poll endpoint 1 (bInterval, USB 2.0 section 9.6.6).
#[derive(Clone, Copy, Debug, PartialEq, Eq, PartialOrd, Ord, Hash)]
pub struct Interval(u8);

impl Interval {
    /// A poll each millisecond.
    pub const MILLISECOND: Interval = Interval(1);

    /// Returns the interval of so many milliseconds, 1 to 255; `None` for 0.
    pub const fn milliseconds(count: u8) -> Option<Interval> {
        if count == 0 { None } else { Some(Interval(count)) }
    }

    /// Returns the milliseconds.
    pub const fn count(self) -> u8 {
        self.0
    }
}

impl Default for Interval {
    fn default() -> Interval {
        Interval::MILLISECOND
    }
}

/// The most current that the keyboard takes from the bus (bMaxPower, USB 2.0 section 9.6.3), in steps of 2 mA.
#[derive(Clone, Copy, Debug, PartialEq, Eq, PartialOrd, Ord, Hash)]
pub struct Power(u8);

impl Power {
    /// Returns the power of so many milliamperes, an odd number rounded up; `None` if that is not 2 to 500.
    pub const fn milliamperes(count: u16) -> Option<Power> {
        if count < 2 || count > 500 { None } else { Some(Power(count.div_ceil(2) as u8)) }
    }

    /// Returns the milliamperes.
    pub const fn count(self) -> u16 {
        2 * self.0 as u16
    }
}

impl Default for Power {
    /// 100 mA, which each port gives before the device is configured (USB 2.0 section 7.2.1).
    fn default() -> Power {
        Power(50)
    }
}

/// What the descriptors say of a maker's product. A name is in UTF-16 ([`utf16!`](crate::utf16)); of one with more than 126
/// units as many characters are sent as these hold. An empty name is none: its index is 0.
///
/// ```
/// use wuzhikar_device::{Identity, Interval, PacketSize, Power, Product, utf16};
///
/// static PRODUCT: Product = Product::new(Identity {
///     manufacturer: utf16!("Example"),
///     product: utf16!("Keyboard"),
///     packet_size: PacketSize::Bytes16,
///     interval: Interval::milliseconds(2).unwrap(),
///     power: Power::milliamperes(100).unwrap(),
///     ..Identity::TEST
/// });
/// let configuration = PRODUCT.descriptors().configuration;
/// assert_eq!((configuration[31], configuration[33]), (16, 2));
/// ```
#[derive(Clone, Copy, Debug, PartialEq, Eq)]
pub struct Identity<'a> {
    /// idVendor: the maker's own, as the USB-IF gives it.
    pub vendor_id: u16,
    /// idProduct: the maker's choice.
    pub product_id: u16,
    /// bcdDevice: 0123h is release 1.23.
    pub release: u16,
    /// The maker's name.
    pub manufacturer: &'a [u16],
    /// The product's name.
    pub product: &'a [u16],
    /// The serial number, another one for each keyboard.
    pub serial_number: &'a [u16],
    /// The most bytes of a packet of endpoint 1.
    pub packet_size: PacketSize,
    /// How often endpoint 1 is to be polled.
    pub interval: Interval,
    /// What the keyboard takes from the bus.
    pub power: Power,
    /// Whether the keyboard can wake its host (bit 5 of bmAttributes, USB 2.0 section 9.6.3): then a host may enable it
    /// ([`DeviceLayer::may_wake`](crate::DeviceLayer::may_wake)).
    pub remote_wakeup: bool,
    /// bCountryCode (HID 1.11 section 6.2.1): the country whose layout is printed on the keys, 33 for the United States,
    /// and 0 where that is not said.
    pub country: u8,
}

impl Identity<'static> {
    /// An identity for tests and not for products: vendor 1209h, product 0001h, without names; packets of up to 16 bytes,
    /// each millisecond, 100 mA, no remote wakeup, no country.
    pub const TEST: Identity<'static> = Identity {
        vendor_id: 0x1209,
        product_id: 0x0001,
        release: 0x0100,
        manufacturer: &[],
        product: &[],
        serial_number: &[],
        packet_size: PacketSize::Bytes16,
        interval: Interval::MILLISECOND,
        power: Power(50),
        remote_wakeup: false,
        country: 0,
    };
}

/// An identity with the descriptors that say it: the keyboard's own, but for what the identity changes.
#[derive(Clone, Copy, Debug, PartialEq, Eq)]
pub struct Product<'a> {
    identity: Identity<'a>,
    device: [u8; 18],
    configuration: [u8; 34],
    hid: [u8; 9],
}

impl Product<'static> {
    /// The product of [`Identity::TEST`], for tests and not for products.
    pub const TEST: Product<'static> = Product::new(Identity::TEST);
}

impl<'a> Product<'a> {
    /// Makes the descriptors of an identity (USB 2.0 sections 9.6.1 and 9.6.3, HID 1.11 section 6.2.1). In a `static` they
    /// take no RAM.
    pub const fn new(identity: Identity<'a>) -> Product<'a> {
        let (mut device, mut configuration, mut hid) = (DEVICE_DESCRIPTOR, CONFIGURATION_DESCRIPTOR, HID_DESCRIPTOR);
        [device[8], device[9]] = identity.vendor_id.to_le_bytes();
        [device[10], device[11]] = identity.product_id.to_le_bytes();
        [device[12], device[13]] = identity.release.to_le_bytes();
        device[14] = named(identity.manufacturer, MANUFACTURER);
        device[15] = named(identity.product, PRODUCT);
        device[16] = named(identity.serial_number, SERIAL_NUMBER);
        configuration[7] |= if identity.remote_wakeup { REMOTE_WAKEUP } else { 0 };
        configuration[8] = identity.power.0;
        configuration[22] = identity.country;
        configuration[31] = identity.packet_size.byte();
        configuration[32] = 0;
        configuration[33] = identity.interval.0;
        hid[4] = identity.country;
        Product { identity, device, configuration, hid }
    }

    /// Returns the identity.
    pub const fn identity(&self) -> &Identity<'a> {
        &self.identity
    }

    /// Returns the descriptors, as [`DeviceLayer::new`](crate::DeviceLayer::new) takes them.
    pub const fn descriptors(&self) -> Descriptors<'_> {
        Descriptors {
            device: &self.device,
            configuration: &self.configuration,
            hid: &self.hid,
            manufacturer: self.identity.manufacturer,
            product: self.identity.product,
            serial_number: self.identity.serial_number,
        }
    }
}

/// What the device descriptor has for a name: its index, or 0 where there is none.
const fn named(name: &[u16], index: u8) -> u8 {
    if name.is_empty() { 0 } else { index }
}

/// Makes a text in UTF-16 when it is compiled, as the names of an [`Identity`] are.
///
/// ```
/// assert_eq!(wuzhikar_device::utf16!("k\u{1f511}"), &[0x6b, 0xd83d, 0xdd11]);
/// ```
#[macro_export]
macro_rules! utf16 {
    ($text:expr) => {{
        const TEXT: &str = $text;
        const UNITS: [u16; $crate::unit_count(TEXT)] = $crate::units(TEXT);
        &UNITS
    }};
}

/// How many units of UTF-16 a text has.
#[doc(hidden)]
pub const fn unit_count(text: &str) -> usize {
    let (bytes, mut at, mut count) = (text.as_bytes(), 0, 0);
    while at < bytes.len() {
        // Each character begins with a byte that is no continuation, and of four bytes are those of two units.
        count += (bytes[at] & 0xc0 != 0x80) as usize + (bytes[at] >= 0xf0) as usize;
        at += 1;
    }
    count
}

/// The units of UTF-16 of a text that has so many.
#[doc(hidden)]
pub const fn units<const N: usize>(text: &str) -> [u16; N] {
    let (bytes, mut units) = (text.as_bytes(), [0; N]);
    let (mut at, mut count) = (0, 0);
    while at < bytes.len() {
        let length = match bytes[at] {
            0..0xc0 => 1,
            0xc0..0xe0 => 2,
            0xe0..0xf0 => 3,
            _ => 4,
        };
        let mut code = bytes[at] as u32 & (0xff >> (length + (length > 1) as u32));
        let mut more = 1;
        while more < length {
            code = code << 6 | bytes[at + more as usize] as u32 & 0x3f;
            more += 1;
        }
        if code < 0x10000 {
            units[count] = code as u16;
        } else {
            units[count] = 0xd800 | ((code - 0x10000) >> 10) as u16;
            count += 1;
            units[count] = 0xdc00 | (code & 0x3ff) as u16;
        }
        count += 1;
        at += length as usize;
    }
    units
}
