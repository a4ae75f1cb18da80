//! Tests of the rules of reading and writing, over the descriptors of examples/hid_driver.

use super::{Asked, Reader, Setting, Target, Within};
use crate::parts::field_values::read_place;
use crate::{FieldUsages, Kind};
use alloc::vec::Vec;

fn reader_of(hex: &str) -> Reader {
    let digits: Vec<u32> = hex.chars().filter_map(|letter| letter.to_digit(16)).collect();
    let bytes: Vec<u8> = digits.chunks(2).map(|pair| (pair[0] * 16 + pair[1]) as u8).collect();
    Reader::new(&bytes).expect("a descriptor")
}

fn gamepad() -> Reader {
    reader_of(include_str!("../../../../examples/hid_driver/gamepad.hex"))
}

fn keyboard() -> Reader {
    reader_of(include_str!("../../../../examples/hid_driver/keyboard.hex"))
}

/// Bytes that look random, the same in each run.
fn bytes_like_random(seed: &mut u32, count: usize) -> Vec<u8> {
    (0..count)
        .map(|_| {
            *seed = seed.wrapping_mul(1_664_525).wrapping_add(1_013_904_223);
            (*seed >> 24) as u8
        })
        .collect()
}

/// A field with its usages.
fn field_usages(reader: &Reader, number: usize) -> FieldUsages<'_> {
    let descriptor = reader.descriptor();
    FieldUsages { field: descriptor.fields()[number], ranges: descriptor.ranges(number), counts: descriptor.counts(number) }
}

fn set(target: Target, asked: Asked) -> Setting {
    Setting { target, asked }
}

#[test]
fn what_was_read_is_written_back() {
    let reader = gamepad();
    let mut seed = 1;
    for _ in 0..1_000 {
        let report = bytes_like_random(&mut seed, 13);
        let values: Vec<_> = reader.read(Kind::Input, &report).expect("a report").collect();
        let in_range = values.iter().filter(|value| value.within == Within::Range);
        let settings: Vec<Setting> = in_range
            .map(|value| set(Target::Field { field: value.field, place: value.place.into() }, Asked::Value(value.raw)))
            .collect();
        assert_eq!(reader.write(Kind::Input, 0, &settings, Some(&report)), Ok(report));
    }
}

#[test]
fn values_are_those_of_the_proved_source() {
    let mut seed = 3;
    for reader in [gamepad(), keyboard(), reader_of(include_str!("many_places.hex"))] {
        let len = reader.descriptor().report_len(Kind::Input, 0).expect("a report");
        for _ in 0..200 {
            let report = bytes_like_random(&mut seed, len);
            for value in reader.read(Kind::Input, &report).expect("a report") {
                let null_state = reader.detail(value.field).is_some_and(|detail| detail.has_null_state());
                let told = read_place(&field_usages(&reader, value.field), null_state, &report, value.place);
                assert_eq!((value.raw, value.within, value.usage), (told.raw, told.within, told.usage));
            }
        }
    }
}

#[test]
fn a_write_changes_no_other_bit() {
    let reader = gamepad();
    let mut seed = 2;
    for raw in 1..=8 {
        let report = bytes_like_random(&mut seed, 13);
        let hat = set(Target::Usage { usage: 0x0001_0039, place: 0 }, Asked::Value(raw));
        let written = reader.write(Kind::Input, 0, &[hat], Some(&report)).expect("a report");
        let mut wanted = report;
        wanted[2] = wanted[2] & 0xF0 | raw as u8;
        assert_eq!(written, wanted);
    }
}

#[test]
fn what_is_asked_for_is_read_by_extract() {
    let reader = keyboard();
    for usage in 0x0007_0004..=0x0007_00a4 {
        let keys = [set(Target::Usage { usage, place: 0 }, Asked::Value(1))];
        let report = reader.write(Kind::Input, 0, &keys, None).expect("a report");
        let found = wuzhikar_reader::extract(reader.descriptor(), &report).expect("a report");
        assert_eq!(wuzhikar_reader::pressed(&found).as_deref(), Ok(&[usage][..]));
        let up = [set(Target::Usage { usage, place: 0 }, Asked::Value(0))];
        let released = reader.write(Kind::Input, 0, &up, Some(&report)).expect("a report");
        assert_eq!(released, [0; 8]);
    }
}

#[test]
fn an_array_has_no_more_room_than_places() {
    let reader = keyboard();
    let key = |usage: u32| set(Target::Usage { usage, place: 0 }, Asked::Value(1));
    let seven: Vec<Setting> = (0x0007_0004..0x0007_000b).map(key).collect();
    assert_eq!(reader.write(Kind::Input, 0, &seven[..6], None), Ok([0, 0, 4, 5, 6, 7, 8, 9].to_vec()));
    assert_eq!(reader.write(Kind::Input, 0, &seven, None), Err(super::WriteError::NoRoom(6)));
}

#[test]
fn a_new_hat_points_nowhere() {
    let reader = gamepad();
    let report = reader.write(Kind::Input, 0, &[], None).expect("a report");
    let hat = reader.read(Kind::Input, &report).expect("a report").find(|value| value.usage == Some(0x0001_0039));
    assert_eq!(hat.map(|value| value.within), Some(Within::Null));
}

#[test]
fn physical_values_are_exact() {
    let reader = gamepad();
    let hat = reader.detail(1).expect("the hat");
    let told: Vec<_> = (1..=8).map(|value| hat.physical_value(value).expect("limits").decimal(3)).collect();
    assert_eq!(told, ["0", "45", "90", "135", "180", "225", "270", "315"]);
}

#[test]
fn a_field_has_more_than_256_places() {
    let reader = reader_of(include_str!("many_places.hex"));
    let set_place = |field, place, value| set(Target::Field { field, place }, Asked::Value(value));
    let settings = [set_place(0, 256, 5), set_place(0, 299, 3), set_place(1, 256, 0x29), set_place(2, 1_023, -2)];
    let report = reader.write(Kind::Input, 0, &settings, None).expect("a report");
    let values: Vec<_> = reader.read(Kind::Input, &report).expect("a report").collect();
    let at = |field: usize, place: u16| values.iter().find(|value| (value.field, value.place) == (field, place)).copied();
    let told = |field, place| at(field, place).map(|value| (value.usage, value.raw, value.within));
    assert_eq!(values.len(), 300 + 257 + 1_024);
    assert_eq!(told(0, 1), Some((Some(0x0009_0002), 0, Within::Range)));
    assert_eq!(told(0, 256), Some((Some(0x0009_0004), 5, Within::Range)));
    assert_eq!(told(0, 299), Some((Some(0x0009_0004), 3, Within::Range)));
    assert_eq!(told(1, 256), Some((Some(0x0007_0029), 0x29, Within::Range)));
    assert_eq!(told(2, 1_022), Some((Some(0xff00_0001), 128, Within::Null)));
    assert_eq!(told(2, 1_023), Some((Some(0xff00_0001), -2, Within::Range)));
    assert_eq!(report.len(), 1_490);
    // Place 256 of the first field has bits 768 to 770; the last place of the last one begins at bit 11,906, after 10b of a null.
    assert_eq!((report[96], &report[1_488..]), (0x05, &[0xf9, 0x07][..]));
}

#[test]
fn a_field_has_its_place_among_all_items() {
    let reader = gamepad();
    let places: Vec<usize> = (0..5).filter_map(|field| reader.placed(field)).map(|placed| placed.place).collect();
    assert_eq!(places, [0, 2, 4, 5]);
    assert!(reader.placed(1).is_some_and(|placed| placed.detail.has_null_state()));
    assert_eq!(reader.placed(3).map(|placed| reader.details().around(placed.place).count()), Some(1));
}
