// SPDX-License-Identifier: MIT OR Apache-2.0
//! A device that is asked at each token, over a flash that may fail: whatever comes, a command that was told to be stored stands
//! in its entry until the next command.
#![no_main]

use fuzz::Bytes;
use wuzhikar::{KeyNo, LayerNo, Mask, Scan, SimFlash, Work};
use wuzhikar_device::{Device, EpAnswer, Product};

fuzz::target!(tokens);

type Fuzzed = Device<'static, SimFlash>;

fn tokens(bytes: &[u8]) {
    let mut bytes = Bytes(bytes);
    let pages = 2 + usize::from(bytes.next_byte() % 7);
    let mut device = Device::start(SimFlash::blank(pages).expect("memory"), &Product::TEST).expect("2 to 8 pages");
    while !bytes.is_empty() {
        token(&mut device, &mut bytes);
    }
}

fn token(device: &mut Fuzzed, bytes: &mut Bytes<'_>) {
    match bytes.next_byte() % 16 {
        0..3 => device.setup(bytes.array()),
        3..5 => {
            let count = usize::from(bytes.next_byte() % 10);
            let _answer = device.out(bytes.take(count));
        }
        5..8 => drop(device.in_packet()),
        8 => drop(device.poll()),
        9 => device.scan(Scan { rows: bytes.array::<6>().map(|byte| u16::from(byte) * 0x0101) }),
        10 => drop(device.work()),
        11 => device.bus_reset(),
        12 => command(device, bytes),
        13 => device.flash_mut().fault_next(Mask::from_iter(bytes.array::<8>())),
        14 => device.restart(),
        _ => {
            device.suspended();
            device.resumed();
        }
    }
}

/// A whole command, and a restart: where it was told to be stored, its entry has its code.
fn command(device: &mut Fuzzed, bytes: &mut Bytes<'_>) {
    let [layer, key, code] = bytes.array();
    let (layer, key, code) = (layer % 4, key % 96, 4 + code % 0xA0);
    device.setup([0x21, 0x09, 3, 3, 0, 0, 6, 0]);
    if device.out(&[3, 1, layer, key, code, 0]) != EpAnswer::Ack {
        return;
    }
    let mut steps = 0;
    while matches!(device.work(), Work::Working) {
        steps += 1;
        assert!(steps <= 387, "a command works for more than 387 steps");
    }
    if matches!(device.in_packet().0, EpAnswer::Packet(packet) if packet.is_empty()) {
        device.restart();
        let entry = device.keyboard().keymap().get(LayerNo::read(layer).expect("a layer"), KeyNo::read(key).expect("a key"));
        assert_eq!(entry.bits(), u16::from(code), "a stored command is lost");
    }
}
