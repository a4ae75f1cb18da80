// SPDX-License-Identifier: MIT OR Apache-2.0

//! The device packet by packet, and whole control transfers.

use crate::{Change, Device, Done, Endpoint1, EpAnswer, Identity, Interval, NotDone, PacketSize, PollAnswer, Power, Product};
use crate::{Endpoints, Keys, TransferError, UsbKeyboard};
use core::ops::ControlFlow;
use wuzhikar::{KeyNo, LayerNo, Scan, SimFlash, UnstartedKeyboard, Work};

const SET_CONFIGURATION: [u8; 8] = [0x00, 0x09, 1, 0, 0, 0, 0, 0];
const SET_HALT: [u8; 8] = [0x02, 0x03, 0, 0, 0x81, 0, 0, 0];
const CLEAR_HALT: [u8; 8] = [0x02, 0x01, 0, 0, 0x81, 0, 0, 0];
const SET_BOOT: [u8; 8] = [0x21, 0x0b, 0, 0, 0, 0, 0, 0];
const SET_FEATURE: [u8; 8] = [0x21, 0x09, 3, 3, 0, 0, 6, 0];
const GET_FEATURE: [u8; 8] = [0xa1, 0x01, 3, 3, 0, 0, 6, 0];

const fn product(packet_size: PacketSize) -> Product<'static> {
    Product::new(Identity { packet_size, ..Identity::TEST })
}

static PRODUCTS: [Product<'static>; 4] =
    [product(PacketSize::Bytes8), product(PacketSize::Bytes16), product(PacketSize::Bytes32), product(PacketSize::Bytes64)];

/// A configured device with packets of 8 bytes.
fn configured(product: &'static Product<'static>) -> Device<'static, SimFlash> {
    let mut device = Device::start(SimFlash::blank(2).unwrap(), product).unwrap();
    ask(&mut device, SET_CONFIGURATION);
    device
}

fn ask(device: &mut Device<SimFlash>, setup: [u8; 8]) -> Option<Change> {
    device.control(setup, &mut []).unwrap().change
}

fn press(device: &mut Device<SimFlash>, row: u16) {
    (0..5).for_each(|_| device.scan(Scan { rows: [row, 0, 0, 0, 0, 0] }));
}

/// The packet of a poll.
fn packet(device: &mut Device<SimFlash>) -> Vec<u8> {
    match device.poll() {
        PollAnswer::Data(packet) => packet.to_vec(),
        other => panic!("{other:?}"),
    }
}

/// All packets, until there is none.
fn packets(device: &mut Device<SimFlash>) -> Vec<Vec<u8>> {
    let mut all = Vec::new();
    while let PollAnswer::Data(packet) = device.poll() {
        all.push(packet.to_vec());
    }
    assert_eq!(device.poll(), PollAnswer::Nak);
    all
}

fn lengths(packets: &[Vec<u8>]) -> Vec<usize> {
    packets.iter().map(Vec::len).collect()
}

/// A device with its keyboard in lent memory, which after a cut is lent again, beside one that owns its keyboard.
#[test]
fn a_keyboard_in_lent_memory_is_the_same() {
    let mut memory = UnstartedKeyboard::NEW;
    let mut flashes = [SimFlash::blank(2).unwrap(), SimFlash::blank(2).unwrap()];
    for code in [5, 6] {
        let [one, other] = flashes;
        let mut lent = Device::start_in(&mut memory, one, &PRODUCTS[0]).unwrap();
        let mut owned = Device::start(other, &PRODUCTS[0]).unwrap();
        for (setup, mut data) in
            [(SET_CONFIGURATION, vec![]), (GET_FEATURE, vec![0; 6]), (SET_FEATURE, vec![3, 1, 0, 0, code, 0])]
        {
            let mut same = data.clone();
            assert_eq!(lent.control(setup, &mut data), owned.control(setup, &mut same));
            assert_eq!(data, same);
        }
        for row in [1, 0] {
            (0..5).for_each(|_| lent.scan(Scan { rows: [row, 0, 0, 0, 0, 0] }));
            press(&mut owned, row);
            while let PollAnswer::Data(packet) = lent.poll() {
                assert_eq!(owned.poll(), PollAnswer::Data(packet));
            }
            assert_eq!(owned.poll(), PollAnswer::Nak);
        }
        flashes = [lent.into_flash(), owned.into_flash()];
        assert_eq!(flashes[0].image(), flashes[1].image());
    }
}

#[test]
fn reports_come_in_the_packets_of_the_endpoint() {
    for (product, keys) in PRODUCTS.iter().zip([&[8, 8, 7][..], &[16, 7], &[23], &[23]]) {
        let mut device = configured(product);
        press(&mut device, 1);
        let all = packets(&mut device);
        assert_eq!((lengths(&all), &all.concat()[..3]), (keys.to_vec(), &[1, 0, 1][..]));
        assert_eq!(ask(&mut device, SET_BOOT), None);
        let all = packets(&mut device);
        // The host asked for each 8 bytes; no empty packet follows.
        assert_eq!(all, [[0; 8], [0, 0, 4, 0, 0, 0, 0, 0]]);
    }
}

/// A device with packets of 8 bytes that has sent the first packet of the report of key 0.
fn under_way() -> Device<'static, SimFlash> {
    let mut device = configured(&PRODUCTS[0]);
    press(&mut device, 1);
    assert_eq!(packet(&mut device), [1, 0, 1, 0, 0, 0, 0, 0]);
    device
}

#[test]
fn a_change_comes_with_its_status_packet() {
    let mut device = Device::start(SimFlash::blank(2).unwrap(), &PRODUCTS[0]).unwrap();
    assert_eq!(ask(&mut device, [0, 5, 9, 0, 0, 0, 0, 0]), Some(Change::Address(9)));
    assert_eq!(ask(&mut device, SET_CONFIGURATION), Some(Change::Endpoint(Endpoint1::Ready)));
    assert_eq!(ask(&mut device, SET_HALT), Some(Change::Endpoint(Endpoint1::Halted)));
    assert_eq!(ask(&mut device, SET_BOOT), None);
}

#[test]
fn a_report_under_way_goes_on_behind_other_transfers() {
    let mut device = under_way();
    device.setup([0x80, 0, 0, 0, 0, 0, 2, 0]);
    assert_eq!(packet(&mut device).len(), 8);
    ask(&mut device, [0x21, 10, 0, 0, 0, 0, 0, 0]);
    // A newer report waits until it is over.
    press(&mut device, 3);
    assert_eq!(lengths(&packets(&mut device)), [7, 8, 8, 7]);
}

#[test]
fn a_report_under_way_begins_anew_with_the_endpoint() {
    for change in [SET_CONFIGURATION, CLEAR_HALT, [0x01, 0x0b, 0, 0, 0, 0, 0, 0]] {
        let mut device = under_way();
        assert_eq!(ask(&mut device, change), Some(Change::Endpoint(Endpoint1::Ready)));
        let all = packets(&mut device);
        assert_eq!((lengths(&all), &all[0][..3]), (vec![8, 8, 7], &[1, 0, 1][..]));
    }
    // A halt, and an endpoint that is off for a time: the release after it comes too.
    for (off, answer) in [(SET_HALT, PollAnswer::Stall), ([0, 9, 0, 0, 0, 0, 0, 0], PollAnswer::Nothing)] {
        let mut device = under_way();
        ask(&mut device, off);
        press(&mut device, 0);
        assert_eq!([device.poll(), device.poll()], [answer.clone(), answer]);
        ask(&mut device, SET_CONFIGURATION);
        let all = packets(&mut device);
        assert_eq!(lengths(&all), [8, 8, 7, 8, 8, 7]);
        assert_eq!([all[0][2], all[3][2]], [1, 0]);
    }
}

#[test]
fn a_report_of_the_old_protocol_is_forgotten() {
    // The report goes on to its end, the boot report without usages comes after it, and then that of the key that is held.
    let mut device = under_way();
    ask(&mut device, SET_BOOT);
    let all = packets(&mut device);
    assert_eq!((lengths(&all[..2]), &all[2..]), (vec![8, 7], &[vec![0; 8], vec![0, 0, 4, 0, 0, 0, 0, 0]][..]));
    // So the host forgets a key that it knows of by a report which ended after its request, and that is up again.
    let mut device = under_way();
    press(&mut device, 0);
    ask(&mut device, [0x21, 0x0b, 1, 0, 0, 0, 0, 0]);
    let all = packets(&mut device);
    assert_eq!((lengths(&all), all[2][..3].to_vec()), (vec![8, 7, 8, 8, 7], vec![1, 0, 0]));
    // A SET_PROTOCOL that is refused, or given up before its status stage, changes nothing, nor does one before any report.
    let mut device = under_way();
    assert!(device.control([0x21, 0x0b, 2, 0, 0, 0, 0, 0], &mut []).is_err());
    ask(&mut device, SET_CONFIGURATION);
    device.setup(SET_BOOT);
    let all = packets(&mut device);
    assert_eq!((lengths(&all), all[0][2]), (vec![8, 8, 7], 1));
    let mut device = configured(&PRODUCTS[0]);
    ask(&mut device, SET_BOOT);
    assert_eq!(device.poll(), PollAnswer::Nak);
}

#[test]
fn a_reset_and_a_cut_drop_a_report_under_way() {
    let mut device = under_way();
    device.bus_reset();
    assert_eq!(device.poll(), PollAnswer::Nothing);
    ask(&mut device, SET_CONFIGURATION);
    // The key is still held.
    let all = packets(&mut device);
    assert_eq!((lengths(&all), all[0][2]), (vec![8, 8, 7], 1));
    let mut device = under_way();
    device.restart();
    assert_eq!(device.poll(), PollAnswer::Nothing);
    ask(&mut device, SET_CONFIGURATION);
    assert_eq!(device.poll(), PollAnswer::Nak);
    // The key that is held goes down anew.
    press(&mut device, 1);
    assert_eq!(packet(&mut device)[..3], [1, 0, 1]);
}

#[test]
fn an_identity_changes_its_own_bytes_alone() {
    let product = Product::new(Identity {
        packet_size: PacketSize::Bytes64,
        interval: Interval::milliseconds(255).unwrap(),
        power: Power::milliamperes(499).unwrap(),
        remote_wakeup: true,
        country: 33,
        ..Identity::TEST
    });
    let mut expected = wuzhikar::usb::CONFIGURATION_DESCRIPTOR;
    [expected[7], expected[8], expected[22], expected[31], expected[33]] = [0xa0, 250, 33, 64, 255];
    assert_eq!(product.descriptors().configuration, expected);
    assert_eq!(product.descriptors().hid, &expected[18..27]);
    assert_eq!(Product::TEST.descriptors().device, {
        let mut bytes = wuzhikar::usb::DEVICE_DESCRIPTOR;
        [bytes[12], bytes[13]] = [0x00, 0x01];
        bytes
    });
    for size in 0..100 {
        assert_eq!(PacketSize::from_bytes(size).map(PacketSize::bytes), [8, 16, 32, 64].contains(&size).then_some(size));
    }
    assert_eq!(Interval::milliseconds(0), None);
    assert_eq!([0, 1, 501].map(Power::milliamperes), [None; 3]);
    assert_eq!([2, 3, 500].map(|count| Power::milliamperes(count).unwrap().count()), [2, 4, 500]);
    // A host reads them, and the rest of the configuration is the keyboard's own.
    let mut device = Device::start(SimFlash::blank(2).unwrap(), &product).unwrap();
    let mut bytes = [0; 64];
    let read = |length| Ok(Done { length, change: None });
    assert_eq!(device.control([0x80, 6, 0, 2, 0, 0, 64, 0], &mut bytes), read(34));
    assert_eq!(bytes[..34], expected);
    assert_eq!(device.control([0x81, 6, 0, 0x21, 0, 0, 64, 0], &mut bytes), read(9));
    assert_eq!(bytes[..9], expected[18..27]);
}

#[test]
fn a_whole_transfer_is_made_or_says_why_not() {
    let mut device = configured(&Product::TEST);
    let mut b = [3, 1, 0, 0, 5, 0];
    assert_eq!(device.control(SET_FEATURE, &mut b), Ok(Done { length: 6, change: None }));
    assert_eq!(device.control(GET_FEATURE, &mut b), Ok(Done { length: 6, change: None }));
    assert_eq!(b, [3, 0, 0, 0, 5, 0]);
    let stalled = device.control(SET_FEATURE, &mut [3, 1, 4, 0, 5, 0]).unwrap_err();
    assert!(matches!(stalled, NotDone::Stall(why) if why.number() == 8), "{stalled}");
    // The reason is that of the transfer under way.
    device.setup(GET_FEATURE);
    assert_eq!(device.why().number(), 16);
    assert_eq!(device.control(GET_FEATURE, &mut [0; 5]), Err(NotDone::Buffer));
    // A read of whole packets is over with the last one, and with its status stage.
    let mut head = [0; 16];
    assert_eq!(device.control([0x80, 6, 0, 1, 0, 0, 16, 0], &mut head), Ok(Done { length: 16, change: None }));
    assert!(matches!(device.out(&[]), EpAnswer::Stall));
    assert_eq!(device.control(SET_FEATURE, &mut [0; 5]), Err(NotDone::Buffer));
    // The power goes at the first NAK: the assignment before it stands.
    let broken = device.control_with(SET_FEATURE, &mut [3, 1, 0, 0, 6, 0], |device| {
        device.restart();
        ControlFlow::Break(NotDone::Broken)
    });
    assert_eq!(broken, Err(NotDone::Broken));
    assert_eq!(device.control(GET_FEATURE, &mut b), Ok(Done { length: 6, change: None }));
    assert_eq!(b[4], 5);
}

#[test]
fn what_works_is_told() {
    let mut device = configured(&Product::TEST);
    assert!(!device.may_work());
    // What was acknowledged may work until a step has looked: the LEDs, a selection and a command that changes nothing do not.
    device.control([0x21, 9, 1, 2, 0, 0, 2, 0], &mut [1, 1]).unwrap();
    device.control(SET_FEATURE, &mut [3, 0, 0, 1, 0, 0]).unwrap();
    device.control(SET_FEATURE, &mut [3, 1, 0, 0, 4, 0]).unwrap();
    assert!(device.may_work());
    assert_eq!(device.work(), Work::Idle);
    assert!(!device.may_work());
    device.setup(SET_FEATURE);
    assert_eq!(device.out(&[3, 1, 0, 0, 5, 0]), EpAnswer::Ack);
    // It works on after another transfer, and through a bus reset.
    device.setup(GET_FEATURE);
    assert!(matches!(device.in_packet().0, EpAnswer::Packet(_)) && device.may_work());
    device.bus_reset();
    assert_eq!([device.work(), device.work()], [Work::Working, Work::Settled]);
    assert!(!device.may_work());
    assert_eq!(device.work(), Work::Idle);
}

#[test]
fn a_stack_that_keeps_endpoint_0_writes_and_reads_a_key() {
    let mut keyboard = UsbKeyboard::start(SimFlash::blank(2).unwrap()).unwrap();
    let code = |keyboard: &UsbKeyboard<SimFlash>| {
        let keymap = keyboard.keyboard().keymap();
        keymap.get(LayerNo::read(0).unwrap(), KeyNo::read(0).unwrap()).bits()
    };
    assert_eq!((code(&keyboard), keyboard.write(SET_FEATURE, &[3, 1, 0, 0, 5, 0])), (4, Ok(())));
    assert_eq!(code(&keyboard), 5);
    assert_eq!(keyboard.write(SET_BOOT, &[]), Ok(()));
    // A layer that there is not, a packet too long, and a write of one that is read.
    for (setup, bytes) in [(SET_FEATURE, &[3, 1, 4, 0, 5, 0][..]), (SET_FEATURE, &[0; 9]), (GET_FEATURE, &[])] {
        assert_eq!(keyboard.write(setup, bytes), Err(TransferError::Refused));
    }
    assert_eq!(code(&keyboard), 5);
    // What it reads, and a read of what is written.
    assert_eq!(keyboard.read(GET_FEATURE).unwrap()[..], [3, 0, 0, 0, 5, 0]);
    assert_eq!(keyboard.read([0x81, 0x06, 0, 0x22, 0, 0, 0xff, 0]).unwrap().len(), 99);
    assert_eq!(keyboard.read(SET_FEATURE), Err(TransferError::Refused));
}

#[test]
fn a_restart_has_nothing_to_forget() {
    let mut keys = Keys::start(SimFlash::blank(2).unwrap()).unwrap();
    (0..5).for_each(|_| keys.scan(Scan { rows: [1, 0, 0, 0, 0, 0] }));
    assert_eq!(keys.poll().map(|report| report.len()), Some(23));
    keys.setup(SET_BOOT);
    assert!(matches!(keys.in_packet(), EpAnswer::Packet(_)));
    keys.restart();
    assert_eq!(keys.poll(), None);
}
