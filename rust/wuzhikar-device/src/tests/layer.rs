//! The device layer before a keyboard on blank flash: here what the tests share, and packets in any order.

mod requests;
mod transfers;

use super::{Layouted, Other};
use crate::{Change, DeviceLayer, Endpoint1, Endpoints, EpAnswer, Identity, Keys, PollAnswer, Product, utf16};
use wuzhikar::usb::{CONFIGURATION, ENDPOINT_1};
use wuzhikar::{KeyboardOf, Scan, SimFlash, Standard, Work};

const IDENTITY: Identity = Identity {
    vendor_id: 0x1234,
    product_id: 0x5678,
    release: 0x0102,
    manufacturer: utf16!("Example"),
    product: utf16!("Keys"),
    serial_number: utf16!("1"),
    ..Identity::TEST
};

const SET_ADDRESS_5: [u8; 8] = [0x00, 0x05, 5, 0, 0, 0, 0, 0];
const SET_CONFIGURATION_1: [u8; 8] = [0x00, 0x09, 1, 0, 0, 0, 0, 0];
const SET_HALT: [u8; 8] = [0x02, 0x03, 0, 0, 0x81, 0, 0, 0];
const GET_STATUS: [u8; 8] = [0x80, 0x00, 0, 0, 0, 0, 2, 0];
const GET_HALT: [u8; 8] = [0x82, 0x00, 0, 0, 0x81, 0, 2, 0];
const GET_CONFIGURATION: [u8; 8] = [0x80, 0x08, 0, 0, 0, 0, 1, 0];

/// A request of the keyboard with an effect, and the one that shows it: SET_PROTOCOL, GET_PROTOCOL.
const SET_BOOT: [u8; 8] = [0x21, 0x0b, 0, 0, 0, 0, 0, 0];
const GET_PROTOCOL: [u8; 8] = [0xa1, 0x03, 0, 0, 0, 0, 1, 0];

const READY: Change = Change::Endpoint(Endpoint1::Ready);
const STALL: EpAnswer = EpAnswer::Stall;

static PRODUCT: Product = Product::new(IDENTITY);

type Board = Keys<SimFlash>;

/// A keyboard on blank flash.
fn board() -> Board {
    Keys::start(SimFlash::blank(2).unwrap()).unwrap()
}

/// The device layer and the keyboard behind it.
struct Device<D: Layouted = Standard> {
    layer: DeviceLayer<'static>,
    board: Keys<SimFlash, KeyboardOf<D>>,
}

impl Device {
    fn of(product: &'static Product) -> Device {
        Device::with(product)
    }

    /// In the default state.
    fn new() -> Device {
        Device::of(&PRODUCT)
    }

    /// In the address state.
    fn addressed() -> Device {
        let mut device = Device::new();
        assert_eq!(device.set(SET_ADDRESS_5), Some(Some(Change::Address(5))));
        device
    }

    fn configured() -> Device {
        let mut device = Device::addressed();
        assert_eq!(device.set(SET_CONFIGURATION_1), Some(Some(READY)));
        device
    }

    fn halted() -> Device {
        let mut device = Device::configured();
        assert_eq!(device.set(SET_HALT), Some(Some(Change::Endpoint(Endpoint1::Halted))));
        device
    }
}

impl<D: Layouted> Device<D> {
    fn with(product: &'static Product) -> Device<D> {
        Device { layer: DeviceLayer::new(product.descriptors()), board: D::keys(SimFlash::blank(2).unwrap()) }
    }

    fn setup(&mut self, packet: [u8; 8]) {
        self.layer.setup(packet, &mut self.board);
    }

    fn out(&mut self, packet: &[u8]) -> EpAnswer {
        self.layer.out_packet(packet, &mut self.board)
    }

    /// An IN token that brings no change.
    fn in_packet(&mut self) -> EpAnswer {
        let (answer, change) = self.layer.in_packet(&mut self.board);
        assert_eq!(change, None);
        answer
    }

    fn poll(&mut self) -> PollAnswer {
        self.layer.poll(&mut self.board)
    }

    fn bus_reset(&mut self) {
        self.layer.bus_reset(&mut self.board);
    }

    /// Key 0 is pressed.
    fn press(&mut self) {
        (0..5).for_each(|_| self.board.scan(Scan { rows: [1, 0, 0, 0, 0, 0] }));
    }

    /// A step of the flash work, and whether a command has ended.
    fn idle(&mut self) -> bool {
        matches!(self.board.work(), Work::Settled | Work::Failed)
    }

    /// A whole transfer without data: the change that it brings, where it is not stalled.
    fn set(&mut self, setup: [u8; 8]) -> Option<Option<Change>> {
        self.setup(setup);
        match self.layer.in_packet(&mut self.board) {
            (EpAnswer::Packet(packet), change) if packet.is_empty() => Some(change),
            (EpAnswer::Stall, None) => None,
            other => panic!("{other:02x?}"),
        }
    }

    /// A whole read, as a host makes it: its packets, where it is not stalled.
    fn read(&mut self, setup: [u8; 8]) -> Option<Vec<Vec<u8>>> {
        self.setup(setup);
        let (asked, mut packets) = (usize::from(u16::from_le_bytes([setup[6], setup[7]])), Vec::new());
        loop {
            match self.in_packet() {
                EpAnswer::Packet(packet) => packets.push(packet.to_vec()),
                EpAnswer::Stall => return None,
                other => panic!("{other:02x?}"),
            }
            if packets.last().unwrap().len() < 8 || packets.concat().len() >= asked {
                assert_eq!(self.out(&[]), EpAnswer::Ack);
                return Some(packets);
            }
        }
    }

    /// The lengths of the packets of a read with this wLength.
    fn lengths(&mut self, mut setup: [u8; 8], asked: u16) -> Vec<usize> {
        [setup[6], setup[7]] = asked.to_le_bytes();
        self.read(setup).unwrap().iter().map(Vec::len).collect()
    }
}

/// GET_DESCRIPTOR of a string in English, with 255 bytes.
fn string(index: u8) -> [u8; 8] {
    [0x80, 0x06, index, 0x03, 0x09, 0x04, 255, 0]
}

/// GET_DESCRIPTOR of the device, with so many bytes.
fn device_descriptor(asked: u8) -> [u8; 8] {
    [0x80, 0x06, 0, 0x01, 0, 0, asked, 0]
}

/// The bytes of a string descriptor.
fn described(text: &str) -> Vec<u8> {
    let units: Vec<u8> = text.encode_utf16().flat_map(u16::to_le_bytes).collect();
    [vec![2 + units.len() as u8, 3], units].concat()
}

/// Bytes in hex.
fn bytes(text: &str) -> Vec<u8> {
    text.split_whitespace().map(|byte| u8::from_str_radix(byte, 16).unwrap()).collect()
}

/// Numbers that look random.
struct Numbers(u64);

impl Numbers {
    fn below(&mut self, limit: usize) -> usize {
        self.0 = self.0.wrapping_mul(6364136223846793005).wrapping_add(1442695040888963407);
        (self.0 >> 33) as usize % limit
    }
}

fn packets_in_any_order<D: Layouted>() {
    let (mut numbers, mut device, mut endpoint_1) = (Numbers(1), Device::<D>::with(&PRODUCT), Endpoint1::Off);
    let rows: Vec<_> =
        requests::REQUESTS.lines().filter_map(|row| row.split_once('|')).map(|(setup, _)| bytes(setup)).collect();
    for _ in 0..100_000 {
        match numbers.below(100) {
            0..30 => device.setup(rows[numbers.below(rows.len())].clone().try_into().unwrap()),
            30..40 => device.setup([(); 8].map(|_| numbers.below(256) as u8)),
            40..55 => drop(device.out(&[0, 1, 2, 3, 4, 5, 6, 7][..numbers.below(9)])),
            55..85 => {
                let (answer, change) = device.layer.in_packet(&mut device.board);
                // A change comes with an empty packet.
                assert!(change.is_none() || answer == EpAnswer::Packet(Default::default()));
                if let Some(Change::Endpoint(state)) = change {
                    endpoint_1 = state;
                }
            }
            85..90 => device.press(),
            90..92 => {
                device.bus_reset();
                endpoint_1 = Endpoint1::Off;
            }
            92..94 => drop(device.idle()),
            // Endpoint 1 is what the controller was told.
            _ => assert!(match device.poll() {
                PollAnswer::Nothing => endpoint_1 == Endpoint1::Off,
                PollAnswer::Stall => endpoint_1 == Endpoint1::Halted,
                PollAnswer::Nak | PollAnswer::Data(_) => endpoint_1 == Endpoint1::Ready,
            }),
        }
    }
}

#[test]
fn packets_in_any_order_leave_a_conforming_device() {
    packets_in_any_order::<Standard>();
    packets_in_any_order::<Other>();
}
