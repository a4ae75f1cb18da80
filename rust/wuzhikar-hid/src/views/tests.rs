//! Tests of the views, over the descriptors of examples/hid_driver.

use super::Hat;
use crate::{Kind, RawError, Reader};
use alloc::vec;
use alloc::vec::Vec;

const DESCRIPTORS: [&str; 6] = [
    include_str!("../../../../examples/hid_driver/mouse.hex"),
    include_str!("../../../../examples/hid_driver/keyboard.hex"),
    include_str!("../../../../examples/hid_driver/gamepad.hex"),
    include_str!("../../../../examples/hid_driver/touch_screen.hex"),
    include_str!("../../../../examples/hid_driver/others/gamepad.hex"),
    include_str!("../../../../examples/hid_driver/others/touch_screen.hex"),
];

fn reader_of(hex: &str) -> Reader {
    let digits: Vec<u32> = hex.chars().filter_map(|letter| letter.to_digit(16)).collect();
    let bytes: Vec<u8> = digits.chunks(2).map(|pair| (pair[0] * 16 + pair[1]) as u8).collect();
    Reader::new(&bytes).expect("a descriptor")
}

#[test]
fn two_fingers_have_their_numbers_and_places() {
    let reader = reader_of(DESCRIPTORS[3]);
    let touch = reader.touch(&[1, 1, 5, 0x10, 0x08, 0xff, 0x0f, 1, 6, 0x00, 0x04, 0x00, 0x02, 0x20, 0x00, 2]).expect("read");
    let told: Vec<_> = touch.contacts.iter().map(|one| (one.id, one.touches)).collect();
    assert_eq!((told, touch.count), (vec![(Some(5), true), (Some(6), true)], Some(2)));
    // examples/hid_driver prints 18.14 and 19.2 centimetres, 9 and 2.4.
    let places: Vec<_> =
        touch.contacts.iter().map(|one| [one.x, one.y].map(|axis| axis.and_then(|axis| axis.millimetres()))).collect();
    for (place, wanted) in places.iter().flatten().zip([181.4, 192.0, 90.0, 24.0]) {
        assert!((place.expect("a length") - wanted).abs() < 0.1, "{place:?} is not {wanted}");
    }
    // A slot of zeros is no contact where the count is 1.
    let touch = reader.touch(&[1, 1, 0, 0, 8, 0, 8, 0, 0, 0, 0, 0, 0, 0x50, 0, 1]).expect("read");
    assert_eq!((touch.contacts.len(), touch.contacts[0].id), (1, Some(0)));
}

#[test]
fn contacts_are_those_of_finger_collections_around() {
    let reader = reader_of(DESCRIPTORS[5]);
    let mut report = vec![0; 82];
    (report[0], report[81]) = (1, 2);
    report[1..4].copy_from_slice(&[1, 0, 20]);
    report[9..12].copy_from_slice(&[1, 9, 30]);
    let touch = reader.touch(&report).expect("read");
    let told: Vec<_> = touch.contacts.iter().map(|one| (one.id, one.touches, one.x.map(|x| x.raw))).collect();
    assert_eq!(told, [(Some(0), true, Some(20)), (Some(9), true, Some(30))]);
    report[81] = 0;
    assert_eq!(reader.touch(&report).expect("read").contacts.len(), 10);
}

#[test]
fn a_hat_is_a_step_of_eight_or_at_rest() {
    for hex in [DESCRIPTORS[2], DESCRIPTORS[4]] {
        let reader = reader_of(hex);
        let field =
            reader.details().data_fields().find(|placed| placed.detail.max - placed.detail.min == 7).expect("a hat").detail;
        let (hat, kind) = (crate::usages::generic_desktop::HAT_SWITCH, Kind::Input);
        let id = field.id as u8;
        let report = reader.write_all(kind, id, hat, &[field.min + 3], None).expect("written");
        let pad = reader.pad(&report).expect("read");
        assert_eq!((pad.hats.as_slice(), pad.buttons), (&[Some(Hat { step: 3, of: 8 })][..], 0));
        assert_eq!(pad.hats[0].map(|hat| hat.degrees()), Some(135.0));
        assert!(pad.axes[0].is_some() && pad.axes[1].is_some());
    }
}

/// Each number that fits is read back from the bits that it is put into, and no other bit changes.
#[test]
fn what_is_put_is_read_and_all_else_stays() {
    let mut seed = 1u32;
    let mut next = || {
        seed = seed.wrapping_mul(1_664_525).wrapping_add(1_013_904_223);
        seed >> 8
    };
    for reader in DESCRIPTORS.map(reader_of) {
        for (number, field) in reader.descriptor().fields().iter().enumerate() {
            let mut report = reader.raw_report(field.kind, field.id, &[]).expect("a report");
            let first = usize::from(reader.descriptor().uses_ids());
            report[first..].iter_mut().for_each(|byte| *byte = next() as u8);
            let (before, place, value) =
                (report.clone(), (next() % u32::from(field.count)) as u16, next() & ((1 << field.size.min(24)) - 1));
            reader.put_raw(field.kind, &mut report, number, place, value).expect("put");
            let from = field.bit + u64::from(field.size) * u64::from(place);
            let bit = |bytes: &[u8], bit: u64| bytes[first + (bit / 8) as usize] >> (bit % 8) & 1;
            for at in 0..8 * (report.len() - first) as u64 {
                let of_place = (from..from + u64::from(field.size)).contains(&at);
                let wanted = if of_place { (value >> (at - from).min(31) & 1) as u8 } else { bit(&before, at) };
                assert_eq!(bit(&report, at), wanted, "field {number}, place {place}, bit {at}");
            }
            let room = (usize::from(field.size) * usize::from(field.count)).div_ceil(8);
            assert_eq!(reader.put_bytes(field.kind, &mut report, number, &vec![0; room + 1]), Err(RawError::TooLarge));
            reader.put_bytes(field.kind, &mut report, number, &vec![0; room]).expect("put");
            assert!((field.bit..field.bit + u64::from(field.size) * u64::from(field.count)).all(|at| bit(&report, at) == 0));
        }
    }
}

/// No bytes make a view panic, and a mouse's is that of its values.
#[test]
fn any_bytes_are_viewed() {
    for reader in DESCRIPTORS.map(reader_of) {
        for byte in (0..=255).step_by(7) {
            for length in 0..100 {
                let report: Vec<u8> = (0..length).map(|at| if at == 0 { byte % 4 } else { byte ^ at }).collect();
                let is_read = reader.read(Kind::Input, &report).is_ok();
                assert_eq!(reader.keys(&report).is_ok(), is_read);
                assert_eq!(reader.pointer(&report).is_ok(), is_read);
                assert_eq!(reader.pad(&report).is_ok(), is_read);
                assert_eq!(reader.touch(&report).is_ok() && reader.pens(&report).is_ok(), is_read);
            }
        }
    }
}
