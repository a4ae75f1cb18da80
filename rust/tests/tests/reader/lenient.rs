//! The lenient mode: what is read in place of an item, what is told, and the largest texts.

use wuzhikar_reader::ParseFault::{CountTooLarge, Delimiter, EndWithoutCollection, MixedIds, SizeTooLarge, TooLong, Truncated};
use wuzhikar_reader::{Descriptor, Kind, Lenient, ParseError, ParseFault, parse, parse_lenient};

/// The descriptor, and the faults that were passed over.
fn read(text: &[u8]) -> (Descriptor, Vec<(ParseFault, usize)>) {
    let (descriptor, passed) = parse_lenient(text).expect("a text");
    (descriptor, passed.iter().map(|error| (error.fault, error.offset)).collect())
}

fn refused(text: &[u8]) -> ParseError {
    parse_lenient(text).expect_err("a fault")
}

#[test]
fn a_text_without_a_fault_is_read_as_ever() {
    let text = [0x05, 0x01, 0x09, 0x30, 0x75, 0x08, 0x95, 0x01, 0x81, 0x02, 0xFE, 0x01, 0x07, 0x00];
    assert_eq!(read(&text), (parse(&text).expect("a text"), vec![]));
    assert!(Lenient::rewrite(&text).expect("memory").is_none());
}

#[test]
fn a_set_stands_for_its_first_usage() {
    let set = [0xA9, 1, 0x19, 0x30, 0x29, 0x31, 0x09, 0x32, 0xA9, 0];
    let text = [&[0x05, 1, 0x75, 8, 0x95, 2][..], &set, &[0x81, 2]].concat();
    let (descriptor, passed) = read(&text);
    assert_eq!((descriptor.ranges(0), passed), (&[(0x1_0030, 0x1_0031)][..], vec![(Delimiter, 6)]));
}

#[test]
fn sets_that_are_not_whole_stay_refused() {
    let text = |set: &[u8]| [&[0x05, 1, 0x75, 8, 0x95, 1][..], set, &[0x81, 2]].concat();
    let at = |offset| ParseError { fault: Delimiter, offset };
    assert_eq!(refused(&text(&[0xA9, 1, 0x09, 0x30])), at(6));
    assert_eq!(refused(&text(&[0xA9, 1, 0xA9, 1, 0x09, 0x30, 0xA9, 0])), at(6));
    assert_eq!(refused(&text(&[0x09, 0x30, 0xA9, 0])), at(8));
}

#[test]
fn bits_of_large_items_are_counted() {
    // 2,000 bytes, a place of 64 bits, and a byte.
    let text = [
        0x06, 0x00, 0xFF, 0x75, 8, 0x96, 0xD0, 0x07, 0x09, 1, 0x81, 2, 0x75, 64, 0x95, 1, 0x09, 2, 0x81, 2, 0x75, 8, 0x09, 3,
        0x81, 2,
    ];
    let (descriptor, passed) = read(&text);
    assert_eq!(passed, [(CountTooLarge, 10), (SizeTooLarge, 18)]);
    let bits: Vec<u64> = descriptor.fields().iter().map(|field| field.bit).collect();
    assert_eq!((bits, descriptor.ranges(0)), (vec![16_064], &[(0xFF00_0003, 0xFF00_0003)][..]));
    assert_eq!(descriptor.report_len(Kind::Input, 0), Some(2_009));
}

#[test]
fn nothing_before_a_late_report_id_stays() {
    let text = [0x05, 1, 0x75, 8, 0x95, 1, 0x09, 0x30, 0x81, 2, 0x09, 0x31, 0x85, 5, 0x81, 2];
    let (descriptor, passed) = read(&text);
    assert_eq!((descriptor.ranges(0), passed), (&[(0x1_0031, 0x1_0031)][..], vec![(MixedIds, 8)]));
    assert_eq!((descriptor.fields().len(), descriptor.fields()[0].id), (1, 5));
}

#[test]
fn a_fault_is_told_where_it_stands_in_the_text() {
    let text = [0x75, 8, 0x96, 0xD0, 0x07, 0x81, 2, 0xC0];
    assert_eq!(refused(&text), ParseError { fault: EndWithoutCollection, offset: 7 });
    assert_eq!(refused(&[&text[..7], &[0x06, 0x00]].concat()), ParseError { fault: Truncated, offset: 7 });
    assert_eq!(refused(&[&text[..7], &[0xA1, 1]].concat()).offset, 9);
}

#[test]
fn the_largest_texts() {
    // 4,086 data items before a late Report ID, under eight Pushes.
    let text = [&[0xA4; 8][..], &[0x80; 4086], &[0x85, 1]].concat();
    let (descriptor, passed) = read(&text);
    assert_eq!((descriptor.fields().len(), passed.len(), passed[4085]), (0, 4086, (MixedIds, 4093)));
    // Data items of 2^20 bits, as many as padding of 25 bytes has room for, and one more.
    let large = |times| [&[0x76, 0x00, 0x02, 0x96, 0x00, 0x08][..], &[0x80].repeat(times)].concat();
    assert_eq!(read(&large(163)).0.report_len(Kind::Input, 0), Some(163 << 17));
    assert_eq!(refused(&large(164)), ParseError { fault: TooLong, offset: 169 });
    // A bit more is no padding.
    assert_eq!(refused(&[0x76, 0x01, 0x02, 0x96, 0x00, 0x08, 0x80]).fault, SizeTooLarge);
    // A longer text is left to the strict reader.
    assert_eq!(refused(&[&[0xA9, 1][..], &[0x04; 4096]].concat()), ParseError { fault: Delimiter, offset: 0 });
}
