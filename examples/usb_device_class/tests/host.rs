// SPDX-License-Identifier: MIT OR Apache-2.0

//! A host, and the stack between it and the class.

use std::cell::RefCell;
use std::rc::Rc;
use usb_device::class_prelude::*;
use usb_device::control::{ControlPipe, Outcome, Recipient, Request, RequestType};
use usb_device::{Result, UsbDirection};
use usb_device_class::KeyboardClass;
use wuzhikar::SimFlash;
use wuzhikar_device::{Endpoints, EpAnswer, Keys, ScansMatrix, TransferError, Works, write};

/// A command of the host: feature report 3 with operation, layer, key, and the code, low byte first.
const SET_FEATURE: [u8; 8] = [0x21, 9, 3, 3, 2, 0, 6, 0];
const GET_FEATURE: [u8; 8] = [0xa1, 1, 3, 3, 2, 0, 6, 0];
const BOOT_PROTOCOL: [u8; 8] = [0x21, 0x0b, 0, 0, 2, 0, 0, 0];

/// A controller: the packet of endpoint 1, which the host takes.
#[derive(Clone, Default)]
struct Bus(Rc<RefCell<Option<Vec<u8>>>>);

impl UsbBus for Bus {
    fn write(&self, address: EndpointAddress, bytes: &[u8]) -> Result<usize> {
        assert_eq!(u8::from(address), 0x81);
        let mut packet = self.0.borrow_mut();
        if packet.is_some() {
            return Err(UsbError::WouldBlock);
        }
        *packet = Some(bytes.to_vec());
        Ok(bytes.len())
    }
}

/// The keyboard is interface 2: two classes stand before it.
struct Host {
    class: KeyboardClass<'static, Bus, Keys<SimFlash>>,
    bus: Bus,
}

impl Host {
    fn on(flash: SimFlash) -> Host {
        let bus = Bus::default();
        let allocator = Box::leak(Box::new(UsbBusAllocator::new(bus.clone())));
        let _others = [allocator.interface(), allocator.interface()];
        Host { class: KeyboardClass::new(Keys::start(flash).unwrap(), allocator), bus }
    }

    fn new() -> Host {
        Host::on(SimFlash::blank(2).unwrap())
    }

    /// A transfer, as the stack reads its SETUP packet.
    fn control(&mut self, setup: [u8; 8], data: &[u8]) -> Outcome {
        let word = |at: usize| u16::from_le_bytes([setup[at], setup[at + 1]]);
        let request = Request {
            direction: if setup[0] < 0x80 { UsbDirection::Out } else { UsbDirection::In },
            request_type: [RequestType::Standard, RequestType::Class, RequestType::Vendor]
                [usize::from(setup[0] >> 5 & 3)],
            recipient: [Recipient::Device, Recipient::Interface, Recipient::Endpoint][usize::from(setup[0] & 31)],
            request: setup[1],
            value: word(2),
            index: word(4),
            length: word(6),
        };
        let mut pipe = ControlPipe { data, outcome: Outcome::Offered };
        match request.direction {
            UsbDirection::Out => self.class.control_out(ControlOut::new(&mut pipe, &request)),
            UsbDirection::In => self.class.control_in(ControlIn::new(&mut pipe, &request)),
        }
        pipe.outcome
    }

    fn read(&mut self, setup: [u8; 8]) -> Vec<u8> {
        match self.control(setup, &[]) {
            Outcome::Accepted(bytes) => bytes,
            other => panic!("{setup:02x?}: {other:?}"),
        }
    }

    /// So many milliseconds with these keys of row 0 closed.
    fn scans(&mut self, count: u32, row: u16) {
        for _ in 0..count {
            ScansMatrix::scan(self.class.keyboard(), [row, 0, 0, 0, 0, 0]);
            self.class.poll();
        }
    }

    /// The report that the host takes, if there is one.
    fn report(&mut self) -> Option<Vec<u8>> {
        let report = self.bus.0.borrow_mut().take();
        if report.is_some() {
            self.class.endpoint_in_complete(EndpointAddress::from(0x81));
        }
        self.class.poll();
        report
    }

    /// The code that the host reads in an entry.
    fn code(&mut self, layer: u8, key: u8) -> [u8; 2] {
        assert_eq!(self.control(SET_FEATURE, &[3, 0, layer, key, 0, 0]), Outcome::Accepted(vec![]));
        let report = self.read(GET_FEATURE);
        assert_eq!(report[..4], [3, 0, layer, key]);
        [report[4], report[5]]
    }
}

/// Makes a flash whose first page is full, and whose second one must be erased. Each of the 384 entries differs from its default:
/// it has z, and the key z has y.
fn full_flash() -> SimFlash {
    let entries: Vec<u32> = (0..4).flat_map(|layer| (0..96).map(move |key| layer << 24 | key << 16)).collect();
    let code = |entry: u32| if entry == 25 << 16 { 0x1c } else { 0x1d };
    let words = entries.iter().cycle().take(511).map(|entry| 0x1000_0000 | entry | code(*entry));
    let slots = [0x2000_0000].into_iter().chain(words).flat_map(|word: u32| [word, !word]);
    let bytes: Vec<u8> = slots.flat_map(u32::to_le_bytes).chain([0xff; 8]).chain([0; 4088]).collect();
    SimFlash::from_image(bytes).unwrap()
}

#[test]
fn a_host_enumerates_it() {
    let mut host = Host::new();
    let mut bytes = [0; 64];
    let mut writer = DescriptorWriter::new(&mut bytes);
    host.class.get_configuration_descriptors(&mut writer).unwrap();
    let length = writer.position();
    // An interface of HID with the boot interface of a keyboard, number 2, and its endpoint; the HID descriptor between them.
    let (interface, rest) = bytes[..length].split_at(9);
    assert_eq!(interface, [9, 4, 2, 0, 1, 3, 1, 1, 0]);
    let (hid, endpoint) = rest.split_at(9);
    assert_eq!(endpoint, [7, 5, 0x81, 3, 32, 0, 1]);
    assert_eq!(host.read([0x81, 6, 0, 0x21, 2, 0, 9, 0]), hid);
    let report = host.read([0x81, 6, 0, 0x22, 2, 0, 0xff, 0]);
    assert_eq!((report.len(), &report[..4]), (hid[7].into(), &[0x05, 0x01, 0x09, 0x06][..]));
    // Less than there is, and exactly a whole number of packets.
    assert_eq!(host.read([0x81, 6, 0, 0x22, 2, 0, 16, 0]), report[..16]);
    assert_eq!(host.read([0x81, 6, 0, 0x22, 2, 0, 3, 0]), report[..3]);
}

#[test]
fn keys_come_as_reports_and_one_waits_for_room() {
    let mut host = Host::new();
    host.scans(5, 1);
    host.scans(5, 0);
    let pressed = host.report().expect("a press");
    assert_eq!((pressed.len(), pressed[0]), (23, 1));
    assert!(pressed[1..].iter().any(|byte| *byte != 0));
    let released = host.report().expect("a release");
    assert_eq!(released[1..], [0; 22]);
    assert_eq!(host.report(), None);
}

#[test]
fn a_report_that_the_endpoint_has_at_set_protocol_is_forgotten() {
    let mut host = Host::new();
    host.scans(9, 1);
    assert_eq!(host.control(BOOT_PROTOCOL, &[]), Outcome::Accepted(vec![]));
    assert_eq!(host.report().map(|report| report.len()), Some(23));
    assert_eq!(host.report(), Some(vec![0; 8]));
    // The key is held.
    assert_eq!(host.report(), Some(vec![0, 0, 4, 0, 0, 0, 0, 0]));
    assert_eq!(host.report(), None);
}

#[test]
fn a_report_that_waits_at_set_protocol_is_not_sent() {
    let mut host = Host::new();
    // The press is with the endpoint, and the release waits.
    host.scans(5, 1);
    host.scans(5, 0);
    assert_eq!(host.control(BOOT_PROTOCOL, &[]), Outcome::Accepted(vec![]));
    host.scans(5, 2);
    assert_eq!(host.report().map(|report| report.len()), Some(23));
    assert_eq!(host.report(), Some(vec![0; 8]));
    assert_eq!(host.report(), Some(vec![0, 0, 5, 0, 0, 0, 0, 0]));
    assert_eq!(host.report(), None);
}

#[test]
fn requests_without_data_act_and_a_reset_undoes_them() {
    let mut host = Host::new();
    let protocol = [0xa1, 3, 0, 0, 2, 0, 1, 0];
    assert_eq!(host.read(protocol), [1]);
    assert_eq!(host.control(BOOT_PROTOCOL, &[]), Outcome::Accepted(vec![]));
    assert_eq!(host.control([0x21, 0x0a, 0, 25, 2, 0, 0, 0], &[]), Outcome::Accepted(vec![]));
    assert_eq!((host.read(protocol), host.read([0xa1, 2, 0, 0, 2, 0, 1, 0])), (vec![0], vec![25]));
    // A report that nobody took is gone with the reset, and the keys that are held come anew.
    host.scans(5, 1);
    host.class.reset();
    host.bus.0.borrow_mut().take();
    assert_eq!(host.read(protocol), [1]);
    host.class.poll();
    assert_eq!(host.report().map(|report| report[2]), Some(1));
}

#[test]
fn what_is_accepted_is_in_the_flash_and_the_rest_is_not() {
    let mut host = Host::new();
    let before = host.code(1, 95);
    assert_eq!(host.control(SET_FEATURE, &[3, 1, 1, 95, 0x1d, 0]), Outcome::Accepted(vec![]));
    assert_eq!(host.code(1, 95), [0x1d, 0]);
    // Layer 4, key 96, operation 4, no Report ID 3, a byte too few.
    let refused: [&[u8]; 5] =
        [&[3, 1, 4, 0, 4, 0], &[3, 1, 0, 96, 4, 0], &[3, 4, 0, 0, 4, 0], &[2, 1, 0, 0, 4, 0], &[3, 1, 0, 0, 4]];
    for data in refused {
        assert_eq!(host.control(SET_FEATURE, data), Outcome::Rejected, "{data:?}");
    }
    // The power goes and comes back.
    let mut host = Host::on(host.class.into_keyboard().into_flash());
    assert_eq!(host.code(1, 95), [0x1d, 0]);
    assert_eq!(host.control(SET_FEATURE, &[3, 2, 1, 95, 0, 0]), Outcome::Accepted(vec![]));
    assert_eq!(host.code(1, 95), before);
}

#[test]
fn the_longest_command_is_accepted() {
    let mut host = Host::on(full_flash());
    assert_eq!((host.code(0, 0), host.code(3, 95)), ([0x1d, 0], [0x1d, 0]));
    assert_eq!(host.control(SET_FEATURE, &[3, 1, 0, 0, 5, 0]), Outcome::Accepted(vec![]));
    let mut host = Host::on(host.class.into_keyboard().into_flash());
    assert_eq!((host.code(0, 0), host.code(3, 95)), ([5, 0], [0x1d, 0]));
}

#[test]
fn a_command_waits_for_the_one_before() {
    let mut host = Host::new();
    let keyboard = host.class.keyboard();
    let setup = [0x21, 9, 3, 3, 0, 0, 6, 0];
    keyboard.setup(setup);
    assert_eq!(keyboard.out(&[3, 1, 0, 0, 0x1d, 0]), EpAnswer::Ack);
    assert_eq!(write(keyboard, setup, &[3, 1, 0, 1, 0x1e, 0], 388), Err(TransferError::Busy));
    assert_eq!(write(keyboard, setup, &[3, 1, 9, 1, 0x1e, 0], 388), Err(TransferError::Busy));
    (0..387).for_each(|_| Works::work(keyboard));
    assert_eq!(write(keyboard, setup, &[3, 1, 0, 1, 0x1e, 0], 0), Err(TransferError::Unfinished));
    (0..387).for_each(|_| Works::work(keyboard));
    assert_eq!((host.code(0, 0), host.code(0, 1)), ([0x1d, 0], [0x1e, 0]));
}

#[test]
fn what_is_not_the_keyboards_is_left_to_the_stack() {
    let mut host = Host::new();
    // The device descriptor, another interface, a vendor's request.
    for setup in [[0x80, 6, 0, 1, 0, 0, 18, 0], [0x81, 6, 0, 0x22, 1, 0, 99, 0], [0xc1, 1, 0, 0, 2, 0, 4, 0]] {
        assert_eq!(host.control(setup, &[]), Outcome::Offered, "{setup:02x?}");
    }
    assert_eq!(host.control([0x01, 11, 0, 0, 2, 0, 0, 0], &[]), Outcome::Offered);
    // A request of the class that the keyboard does not know.
    assert_eq!(host.control([0xa1, 7, 0, 0, 2, 0, 4, 0], &[]), Outcome::Rejected);
}
