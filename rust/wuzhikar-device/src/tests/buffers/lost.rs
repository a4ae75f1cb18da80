//! Acknowledgements that are lost on the bus (USB 2.0 sections 8.5.3.3, 8.6.4), and commands of the firmware's own.

use super::*;
use crate::Guarded;

const SET_FEATURE: [u8; 8] = [0x21, 0x09, 3, 3, 0, 0, 6, 0];
const KEY_0_IS_B: [u8; 6] = [3, 1, 0, 0, 5, 0];
const GET_STATUS: [u8; 8] = [0x80, 0, 0, 0, 0, 0, 2, 0];
const SET_BOOT: [u8; 8] = [0x21, 0x0b, 0, 0, 0, 0, 0, 0];
const CLEAR_HALT: [u8; 8] = [2, 1, 0, 0, 0x81, 0, 0, 0];
const SET_INTERFACE: [u8; 8] = [1, 0x0b, 0, 0, 0, 0, 0, 0];
const SET_IDLE: [u8; 8] = [0x21, 0x0a, 0, 0, 0, 0, 0, 0];

/// A bus on which nothing happens by itself, and on which no acknowledgement is lost.
fn quiet(buffers: usize) -> RefCell<Bus> {
    let mut bus = Bus::new(1, true, 16, buffers);
    (bus.quiet, bus.loses) = (true, 0);
    RefCell::new(bus)
}

/// The host does these, the firmware serves each, and makes a step of the flash work.
fn acts<const N: usize>(usb: &mut Usb, bus: &RefCell<Bus>, acts: [Act; N]) {
    for act in acts {
        bus.borrow_mut().act(act);
        serve(usb, bus);
        usb.work();
        serve(usb, bus);
    }
}

/// A configured device.
fn configured(bus: &RefCell<Bus>) -> Usb<'_> {
    let mut usb = device(&PRODUCTS[1], SimFlash::blank(2).unwrap(), bus);
    acts(&mut usb, bus, [Act::Setup(SET_CONFIGURATION), Act::In]);
    usb
}

fn lose(bus: &RefCell<Bus>, loses: bool) {
    bus.borrow_mut().loses = usize::from(loses);
}

fn reports(bus: &RefCell<Bus>) -> usize {
    bus.borrow().counts.0[bus::REPORTS]
}

#[test]
fn a_packet_that_comes_again_is_acknowledged() {
    for (setup, packet, times) in [(SET_FEATURE, KEY_0_IS_B.to_vec(), 4), ([0x21, 9, 1, 2, 0, 0, 2, 0], vec![1, 2], 3)] {
        let bus = quiet(1);
        let mut usb = configured(&bus);
        acts(&mut usb, &bus, [Act::Setup(setup)]);
        for time in 0..times {
            lose(&bus, time + 1 < times);
            acts(&mut usb, &bus, [Act::Out(packet.clone())]);
        }
        acts(&mut usb, &bus, [Act::In, Act::In, Act::In]);
        assert!(bus.borrow().host.is_free() && bus.borrow().counts.0[bus::STALLS] == 0);
        assert!(code(usb.behind().keyboard(), 0, 0) == 5 || usb.behind().leds() == 2);
    }
}

#[test]
fn a_lost_ack_holds_reports_back_for_50_scans() {
    for request in [SET_CONFIGURATION, CLEAR_HALT, SET_INTERFACE] {
        let bus = quiet(1);
        let mut usb = configured(&bus);
        acts(&mut usb, &bus, [Act::Setup(request)]);
        lose(&bus, true);
        // The host has the packet, and asks no more.
        acts(&mut usb, &bus, [Act::In]);
        lose(&bus, false);
        for scan in 1..=50 {
            assert_eq!(reports(&bus), 0, "{request:02x?}, {scan}");
            usb.scan_rows([1, 0, 0, 0, 0, 0]);
            acts(&mut usb, &bus, [Act::Poll]);
        }
        // It is handed over twice.
        acts(&mut usb, &bus, [Act::Poll, Act::Poll, Act::Poll, Act::Poll, Act::Poll]);
        assert_eq!(reports(&bus), 2, "{request:02x?}");
    }
}

#[test]
fn a_request_that_is_given_up_leaves_either_toggle() {
    for request in [SET_CONFIGURATION, CLEAR_HALT, SET_INTERFACE] {
        let bus = quiet(1);
        bus.borrow_mut().size = 32;
        let mut usb = device(&PRODUCTS[2], SimFlash::blank(2).unwrap(), &bus);
        acts(&mut usb, &bus, [Act::Setup(SET_CONFIGURATION), Act::In]);
        (0..5).for_each(|_| usb.scan_rows([1, 0, 0, 0, 0, 0]));
        serve(&mut usb, &bus);
        acts(&mut usb, &bus, [Act::Poll]);
        // The host does not take the status packet, and wants DATA1 as before. It ends another transfer.
        acts(&mut usb, &bus, [Act::Setup(request), Act::Setup(SET_IDLE), Act::In]);
        (0..5).for_each(|_| usb.scan_rows([0; 6]));
        serve(&mut usb, &bus);
        acts(&mut usb, &bus, [Act::Poll, Act::Poll, Act::Poll]);
        assert_eq!(bus.borrow().known[&(1, 23)][1..], [0; 22], "{request:02x?}: a key sticks");
    }
}

#[test]
fn a_report_that_waits_is_dropped_with_its_protocol() {
    for buffers in [1, 2] {
        let bus = quiet(buffers);
        let mut usb = configured(&bus);
        (0..5).for_each(|_| usb.scan_rows([1, 0, 0, 0, 0, 0]));
        serve(&mut usb, &bus);
        // A report of 23 bytes is in the buffers. The host gets nothing of it, also not before it knows of the boot protocol.
        acts(&mut usb, &bus, [Act::Setup(SET_BOOT), Act::Poll, Act::Poll, Act::In]);
        assert_eq!(reports(&bus), 0);
        acts(&mut usb, &bus, [Act::Poll, Act::Poll, Act::Poll, Act::Poll]);
        assert_eq!(bus.borrow().known[&(0, 8)], [0, 0, 4, 0, 0, 0, 0, 0]);
        assert_eq!(bus.borrow().known.len(), 1);
    }
}

#[test]
fn an_address_is_taken_behind_its_status_stage_alone() {
    let bus = quiet(1);
    let mut usb = configured(&bus);
    acts(&mut usb, &bus, [Act::Reset, Act::Setup([0, 5, 9, 0, 0, 0, 0, 0])]);
    assert_eq!(bus.borrow().address, 0);
    lose(&bus, true);
    acts(&mut usb, &bus, [Act::In]);
    assert_eq!(bus.borrow().address, 0);
    lose(&bus, false);
    acts(&mut usb, &bus, [Act::In]);
    assert_eq!(bus.borrow().address, 9);
    // One that is given up.
    acts(&mut usb, &bus, [Act::Setup([0, 5, 7, 0, 0, 0, 0, 0]), Act::Setup(GET_STATUS), Act::In, Act::Out(vec![])]);
    assert_eq!(bus.borrow().address, 9);
}

#[test]
fn a_key_wakes_a_host_that_asked_for_it() {
    static WAKES: Product = Product::new(Identity { remote_wakeup: true, ..Identity::TEST });
    for (enabled, ends) in [(true, false), (false, false), (true, true)] {
        let bus = quiet(1);
        let mut usb = device(&WAKES, SimFlash::blank(2).unwrap(), &bus);
        acts(&mut usb, &bus, [Act::Setup(SET_CONFIGURATION), Act::In]);
        if enabled {
            acts(&mut usb, &bus, [Act::Setup([0, 3, 1, 0, 0, 0, 0, 0]), Act::In]);
        }
        assert_eq!(usb.may_wake(), enabled);
        usb.suspended();
        serve(&mut usb, &bus);
        assert!(!usb.wakes());
        if ends {
            usb.resumed();
        }
        (0..5).for_each(|_| usb.scan_rows([1, 0, 0, 0, 0, 0]));
        serve(&mut usb, &bus);
        assert_eq!([usb.wakes(), usb.wakes()], [enabled && !ends, false]);
        // The host goes on, and has the report.
        usb.resumed();
        acts(&mut usb, &bus, [Act::Poll, Act::Poll]);
        assert_eq!(bus.borrow().known[&(1, 23)][2], 1);
        // Once more, with the key's release; a reset ends it.
        usb.suspended();
        (0..5).for_each(|_| usb.scan_rows([0; 6]));
        serve(&mut usb, &bus);
        if ends {
            acts(&mut usb, &bus, [Act::Reset, Act::Setup(SET_CONFIGURATION), Act::In]);
        }
        assert_eq!([usb.wakes(), usb.wakes()], [enabled && !ends, false]);
    }
}

#[test]
fn a_command_of_the_firmware_falls_into_no_transfer() {
    let bus = quiet(1);
    let mut usb = configured(&bus);
    // In the middle of a read, and of a write, until the host has its status packet.
    for act in [Act::Setup(GET_STATUS), Act::In] {
        acts(&mut usb, &bus, [act]);
        assert_eq!(usb.command(KEY_0_IS_B), EpAnswer::Nak);
    }
    acts(&mut usb, &bus, [Act::Out(vec![])]);
    bus.borrow_mut().act(Act::Setup(SET_FEATURE));
    serve(&mut usb, &bus);
    assert_eq!(usb.command([3, 3, 0, 0, 0, 0]), EpAnswer::Nak);
    acts(&mut usb, &bus, [Act::Out(KEY_0_IS_B.to_vec()), Act::In, Act::In, Act::In]);
    assert_eq!(code(usb.behind().keyboard(), 0, 0), 5);
    // Between two: all keys are reset, and another command waits until that is done.
    assert_eq!(usb.command([3, 3, 0, 0, 0, 0]), EpAnswer::Ack);
    assert_eq!(usb.command(KEY_0_IS_B), EpAnswer::Nak);
    while usb.behind().may_work() {
        usb.work();
    }
    assert_eq!(code(usb.behind().keyboard(), 0, 0), 4);
    // What the host sends without a SETUP packet is no data of it.
    acts(&mut usb, &bus, [Act::Out(KEY_0_IS_B.to_vec())]);
    assert_eq!(code(usb.behind().keyboard(), 0, 0), 4);
    // Refused: a selection, which the host's next read would be of, and a layer that there is not.
    assert_eq!(usb.command([3, 0, 0, 1, 0, 0]), EpAnswer::Stall);
    assert_eq!(usb.command([3, 1, 4, 0, 5, 0]), EpAnswer::Stall);
    acts(&mut usb, &bus, [Act::Setup(SET_BOOT), Act::In]);
    assert!(bus.borrow().host.is_free());
}

#[test]
fn a_locked_keyboard_types_and_takes_no_command() {
    let bus = quiet(1);
    let keys = Keys::start(SimFlash::blank(2).unwrap()).unwrap();
    let layer = DeviceLayer::new(PRODUCTS[1].descriptors());
    let mut usb = UsbDevice::new(layer, Guarded::new(keys, 0), Played::on(&bus), PacketSize::Bytes16);
    for (locked, stored) in [(true, 4), (false, 5)] {
        usb.set_locked(locked);
        let command = [Act::Setup(SET_FEATURE), Act::Out(KEY_0_IS_B.to_vec()), Act::In, Act::In, Act::In];
        for act in [Act::Setup(SET_CONFIGURATION), Act::In].into_iter().chain(command) {
            if bus.borrow().counts.0[bus::STALLS] == 0 || matches!(act, Act::Setup(_)) || !locked {
                bus.borrow_mut().allows_stalls = locked;
                bus.borrow_mut().act(act);
            }
            usb.serve(&mut Played::on(&bus));
            usb.work();
            usb.serve(&mut Played::on(&bus));
        }
        assert_eq!(code(usb.behind().behind().keyboard(), 0, 0), stored);
    }
    (0..5).for_each(|_| usb.scan_rows([1, 0, 0, 0, 0, 0]));
    for _ in 0..2 {
        usb.serve(&mut Played::on(&bus));
        bus.borrow_mut().act(Act::Poll);
    }
    assert_eq!(reports(&bus), 1);
}
