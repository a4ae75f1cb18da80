//! Texts and reports as large as the limits let them be: 4,096 bytes, 256 fields, 262,144 places in a mebibyte.

use crate::texts::{parse_pieces, text_of};
use wuzhikar_reader::{Descriptor, Found, Kind, extract, parse, pressed};

/// 4,096 bytes: eight Pushes, 256 fields of up to three usages in all kinds of ID 255, and usages of one field more than
/// a thousand.
fn large_text() -> Vec<u8> {
    let mut text = text_of("85 FF 75 01 95 02 05 07 8*A4 1300*08 80");
    for field in 1..=255u8 {
        text.extend([0x09, field]);
        text.extend(text_of(["18 28 80", "18 28 92 02 00", "18 28 B1 02"][usize::from(field % 3)]));
    }
    text.resize(4096, 0x04);
    text
}

#[test]
fn a_large_text() {
    let text = large_text();
    let large = parse(&text).expect("a descriptor");
    for first in (0..=text.len()).step_by(101) {
        let (front, rest) = text.split_at(first);
        assert_eq!(parse_pieces([front, rest]).as_ref(), Ok(&large));
    }
    assert_eq!(parse_pieces(text.chunks(1)).as_ref(), Ok(&large));
    assert_eq!((large.fields().len(), large.ranges(0).len()), (256, 1300));
    assert!((0..1300).all(|place| large.usage(0, place) == Some(0x0007_0000)));
    for (place, field) in large.fields().iter().enumerate() {
        assert_eq!((field.id, field.size, field.count), (255, 1, 2));
        let usage = 0x0007_0000 + place as u32;
        assert!(place == 0 || large.ranges(place) == [(usage, usage), (0x0007_0000, 0x0007_0000)]);
    }
    // 86 fields of two bits, and 85 of the other kinds; the ID byte comes first.
    let lengths = [Kind::Input, Kind::Output, Kind::Feature].map(|kind| large.report_len(kind, 255));
    assert_eq!(lengths, [Some(23); 3]);
    assert_eq!(large.report_len(Kind::Input, 254), None);
}

#[test]
fn a_copy_of_256_fields() {
    let text = large_text();
    let descriptor = parse(&text).expect("a descriptor");
    assert_eq!(descriptor.clone(), descriptor);
}

fn found_in(text: &[u8], report: &[u8]) -> (Descriptor, Vec<Found>) {
    let descriptor = parse(text).expect("a descriptor");
    let found = extract(&descriptor, report).expect("a report");
    (descriptor, found)
}

fn count_pressed(found: &[Found]) -> usize {
    pressed(found).expect("memory").len()
}

/// So many Usage items of two bytes of data, whose usages rise from 4000h on.
fn rising(count: u16) -> Vec<u8> {
    (0x4000..0x4000 + count).flat_map(|usage| [0x0A, usage.to_le_bytes()[0], usage.to_le_bytes()[1]]).collect()
}

#[test]
fn a_field_of_1024_single_usages() {
    let text = [text_of("05 0C 25 01 75 01 96 00 04"), rising(1024), text_of("81 02")].concat();
    let (_, found) = found_in(&text, &text_of("128*FE"));
    let wanted = (0..1024).map(|place| Found { usage: 0x000C_4000 + place, value: i64::from(place % 8 != 0) });
    assert_eq!(found, wanted.collect::<Vec<_>>());
    assert_eq!(count_pressed(&found), 896);
}

#[test]
fn an_array_of_many_single_usages() {
    let text = [text_of("05 0C 15 05 26 FF 7F 75 10 95 05"), rising(1300), text_of("81 00")].concat();
    // 4, below the minimum; 5, the first usage; 1,304, the last; 1,305, past it; 6.
    let (_, found) = found_in(&text, &text_of("04 00 05 00 18 05 19 05 06 00"));
    let usages: Vec<u32> = found.iter().map(|found| found.usage).collect();
    assert_eq!(usages, [0x000C_4000, 0x000C_4513, 0x000C_4001]);
    assert_eq!(pressed(&found).expect("memory"), [0x000C_4000, 0x000C_4001, 0x000C_4513]);
}

/// Close to 4,096 bytes: eight Pushes, an array of 1,500 usages, and 255 fields of a bit in all kinds of report 255.
#[test]
fn a_report_of_a_large_text() {
    let mut text = text_of("85 FF 05 07 75 10 95 04 26 DB 05 8*A4");
    text.extend((0..1500).flat_map(|number| [0x09, (number % 255 + 1) as u8]));
    text.extend(text_of("81 00 75 01 95 01"));
    text.extend((1..=255u8).flat_map(|field| [0x09, field, [0x81, 0x91, 0xB1][usize::from(field % 3)], 0x02]));
    // The values 0, 1,499, 254 and 1,500 of the array, and 85 bits.
    let (descriptor, found) = found_in(&text, &text_of("FF 00 00 DB 05 FE 00 DC 05 11*AA"));
    assert_eq!((text.len(), descriptor.fields().len()), (4045, 256));
    let keys = [0x0007_0001, 0x0007_00E1, 0x0007_00FF].map(|usage| Found { usage, value: 1 });
    let bits = (1..=85).map(|field| Found { usage: 0x0007_0000 + 3 * field, value: i64::from(field % 2 == 0) });
    assert_eq!(found, keys.into_iter().chain(bits).collect::<Vec<_>>());
    // 42 bits are set, of the usages 6, 12 and on, and three usages of the array are no multiples of 6.
    assert_eq!(count_pressed(&found), 45);
}

/// Reads a report of so many fields of 1,024 places of 32 bits, each with the usages 0001h to 0400h of a page of its own, in
/// which each bit is set.
fn reads_wide(fields: u32) {
    let mut text = text_of("75 20 96 00 04");
    text.extend((0..fields).flat_map(|page| [0x05, page as u8, 0x19, 0x01, 0x2A, 0x00, 0x04, 0x81, 0x02]));
    let (_, found) = found_in(&text, &vec![0xFF; fields as usize * 4096]);
    let usages = (0..fields).flat_map(|page| (1..=1024).map(move |usage| page << 16 | usage));
    assert!(found.iter().copied().eq(usages.map(|usage| Found { usage, value: u32::MAX.into() })));
    assert_eq!(count_pressed(&found), fields as usize * 1024);
}

#[test]
fn a_report_of_100_352_places() {
    reads_wide(98);
}

#[test]
fn a_report_of_a_mebibyte() {
    reads_wide(256);
}
