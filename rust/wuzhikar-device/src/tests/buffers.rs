//! The device behind a controller with buffers, on buses that lose every fourth acknowledgement.

mod bus;
mod lost;

use super::{Layouted, Other};
use crate::testing::host::{Act, Numbers, SET_CONFIGURATION};
use crate::{DeviceLayer, Endpoint1, EpAnswer, Identity, Keys, PacketSize, Product, UsbDevice};
use bus::{Bus, COMMANDS, Counts, Played};
use std::cell::RefCell;
use wuzhikar::{Defaults, KeyNo, KeyboardOf, LayerNo, Scan, SimFlash, Standard};

const fn product(packet_size: PacketSize) -> Product<'static> {
    Product::new(Identity { packet_size, product: crate::utf16!("Keys"), ..Identity::TEST })
}

/// Products with each packet size.
static PRODUCTS: [Product<'static>; 4] =
    [product(PacketSize::Bytes8), product(PacketSize::Bytes16), product(PacketSize::Bytes32), product(PacketSize::Bytes64)];

/// How many histories of a bus are tried, half of them with two buffers, and half of each with either table of default codes:
/// 100,000, or as many as the variable HISTORIES says.
fn count() -> u64 {
    std::env::var("HISTORIES").map_or(100_000, |count| count.parse().expect("a number"))
}

type Usb<'b, D = Standard> = UsbDevice<'static, Keys<SimFlash, KeyboardOf<D>>, Played<'b>>;

/// A device that has just started, on a bus.
fn device<'b, D: Layouted>(product: &'static Product<'static>, flash: SimFlash, bus: &'b RefCell<Bus>) -> Usb<'b, D> {
    let layer = DeviceLayer::new(product.descriptors());
    UsbDevice::new(layer, D::keys(flash), Played::on(bus), product.identity().packet_size)
}

/// The code of an entry.
fn code<D: Defaults>(keyboard: &KeyboardOf<D>, layer: u8, key: u8) -> u16 {
    keyboard.keymap().get(LayerNo::read(layer).unwrap(), KeyNo::read(key).unwrap()).bits()
}

/// The device serves, and what the host saw the end of since is in the flash; an address that the host gave is taken.
fn serve<D: Layouted>(usb: &mut Usb<D>, bus: &RefCell<Bus>) {
    let given = bus.borrow().given;
    let confirmed = std::mem::take(&mut bus.borrow_mut().confirmed);
    if let Some(command) = confirmed.last() {
        let stored = D::keys(usb.behind().flash().clone());
        let [_, operation, layer, key, low, high] = command[..] else { panic!("six bytes") };
        let expected = match operation {
            1 => u16::from_le_bytes([low, high]),
            _ => code(D::keys(SimFlash::blank(2).unwrap()).keyboard(), layer, key),
        };
        assert_eq!(code(stored.keyboard(), layer, key), expected, "{command:?}");
    }
    usb.serve(&mut Played::on(bus));
    let bus = bus.borrow();
    assert!(
        !bus.host.is_conforming() || given.is_none() || bus.given != given || given.is_some_and(|(to, _)| to == bus.address)
    );
}

/// A history: the firmware serves, scans and works in turns, while at each call to the controller something happens on the
/// bus. What it met, and the flash that it ends with.
///
/// A conforming host then ends its transfer, configures the device and polls: what it knows of each input report is what the
/// keyboard would report. A host forgets at a bus reset, and when it sets the protocol.
fn history<D: Layouted>(seed: u64, conforming: bool, buffers: usize, flash: SimFlash) -> (Counts, SimFlash) {
    let product = &PRODUCTS[seed as usize % 4];
    let bus = &RefCell::new(Bus::new(seed, conforming, product.identity().packet_size.bytes(), buffers));
    let mut usb = device::<D>(product, flash, bus);
    let mut numbers = Numbers(seed);
    for _ in 0..40 {
        serve(&mut usb, bus);
        step(&mut usb, bus, &mut numbers);
        assert!(bus.borrow().endpoint_1 == usb.endpoint_1() || bus.borrow().endpoint_1 == Endpoint1::Off);
    }
    if conforming {
        ends(&mut usb, bus);
    }
    let counts = bus.borrow().counts;
    (counts, usb.into_behind().into_flash())
}

/// The host ends its transfer, configures the device, and polls until all is there.
fn ends<D: Layouted>(usb: &mut Usb<D>, bus: &RefCell<Bus>) {
    bus.borrow_mut().quiet = true;
    serve(usb, bus);
    while !bus.borrow().host.is_free() {
        bus.borrow_mut().go_on();
        usb.work();
        serve(usb, bus);
    }
    bus.borrow_mut().loses = 0;
    for act in [Act::Setup(SET_CONFIGURATION), Act::In] {
        bus.borrow_mut().act(act);
        serve(usb, bus);
    }
    assert_eq!(usb.endpoint_1(), Endpoint1::Ready);
    // Eight reports of three packets, of which one comes twice, and one that is to be forgotten.
    for _ in 0..3 * 30 {
        bus.borrow_mut().act(Act::Poll);
        serve(usb, bus);
    }
    for (id, length) in [(1, 23), (2, 9), (0, 8)] {
        let known = bus.borrow().known.get(&(id, length)).cloned();
        if let Some(report) = read(usb, bus, [0xa1, 1, id, 1, 0, 0, length as u8, 0]) {
            let mut none = vec![0; length];
            none[0] = id;
            assert_eq!(known.unwrap_or(none), report);
        }
    }
}

/// What a host reads, where it is not stalled.
fn read<D: Layouted>(usb: &mut Usb<D>, bus: &RefCell<Bus>, setup: [u8; 8]) -> Option<Vec<u8>> {
    let mut keys = Vec::new();
    bus.borrow_mut().act(Act::Setup(setup));
    serve(usb, bus);
    while !bus.borrow().host.is_free() {
        let act = if keys.len() < usize::from(setup[6]) { Act::In } else { Act::Out(Vec::new()) };
        keys.extend(bus.borrow().packet_0());
        let stalls = bus.borrow().counts.0[bus::STALLS];
        bus.borrow_mut().act(act);
        serve(usb, bus);
        if bus.borrow().counts.0[bus::STALLS] > stalls {
            return None;
        }
    }
    Some(keys)
}

/// A key goes down or up, or the flash works.
fn step<D: Layouted>(usb: &mut Usb<D>, bus: &RefCell<Bus>, numbers: &mut Numbers) {
    match numbers.below(8) {
        0 | 1 => {
            let scan = Scan { rows: [numbers.below(8) as u16, 0, 0, 0, 0, numbers.pick(&[0, 0, 1 << 15])] };
            (0..5).for_each(|_| usb.scan_rows(scan.rows));
        }
        // A host that waits for a status packet asks for it within 50 ms.
        2 if bus.borrow().host.is_free() => (0..60).for_each(|_| usb.scan()),
        3..=5 => usb.work(),
        // No host selects what the firmware sets.
        6 if numbers.one_of(4) => {
            let answer = usb.command([3, numbers.pick(&[1, 7, 0]), 3, 50, numbers.pick(&[4, 5, 6]), 0]);
            bus.borrow_mut().counts.0[COMMANDS] += usize::from(answer == EpAnswer::Ack);
        }
        _ => {}
    }
}

/// So many histories by four threads, in each of which the flash goes from one to the next: each of what is counted is met.
fn histories_of<D: Layouted>(count: u64, conforming: bool, buffers: usize) {
    let in_one_thread = |first: u64| {
        let (mut flash, mut all) = (SimFlash::blank(2).unwrap(), Counts::default());
        for number in (first..count).step_by(4) {
            let (counts, next) = history::<D>(number / 4 + first * count, conforming, buffers, flash);
            flash = next;
            all += counts;
        }
        all
    };
    let mut all = Counts::default();
    std::thread::scope(|scope| {
        let threads = [0, 1, 2, 3].map(|first| scope.spawn(move || in_one_thread(first)));
        threads.into_iter().for_each(|thread| all += thread.join().unwrap());
    });
    println!("{all:?}");
    assert!(all.0.iter().all(|met| *met as u64 > count / 150), "{all:?}");
}

fn histories(count: u64, conforming: bool, buffers: usize) {
    histories_of::<Standard>(count / 2, conforming, buffers);
    histories_of::<Other>(count / 2, conforming, buffers);
}

#[test]
fn what_the_host_saw_the_end_of_is_stored_and_no_key_sticks() {
    histories(count() / 2, true, 1);
}

#[test]
fn what_the_host_saw_the_end_of_is_stored_and_no_key_sticks_with_two_buffers() {
    histories(count() / 2, true, 2);
}

#[test]
fn a_nonconforming_host_breaks_nothing() {
    histories(count() / 10, false, 1);
    histories(count() / 10, false, 2);
}
