//! Texts of the greatest length, and numbers that are as large as they can be.

use wuzhikar_hid::{Details, Kind, ParseError, ParseFault, ReaderError, details};

/// A text of 4,096 bytes: these, and then the others over and over.
fn filled(start: &[u8], again: &[u8]) -> Vec<u8> {
    start.iter().chain(again.iter().cycle()).take(4096).copied().collect()
}

/// The same whose last two bytes are a data item.
fn ended(start: &[u8], again: &[u8]) -> Vec<u8> {
    let mut text = filled(start, again);
    text[4094..].copy_from_slice(&[0x81, 2]);
    text
}

fn told(text: &[u8]) -> Details {
    details(text).expect("a descriptor")
}

/// How many data items there are, the last one's first bit, ID and collection; how many collections, and the one around the
/// last one.
fn counts(told: &Details) -> String {
    let last = told.fields.last().map(|detail| (detail.bit, detail.id, detail.inside));
    let inner = told.collections.last().map(|inner| inner.outer);
    format!("{} {last:?} {} {inner:?}", told.fields.len(), told.collections.len())
}

const ONE_BIT: [u8; 4] = [0x75, 1, 0x95, 1];

#[test]
fn as_many_data_items_as_there_can_be() {
    let told = told(&filled(&ONE_BIT, &[0x81, 3]));
    assert_eq!(counts(&told), "2046 Some((2045, 0, None)) 0 None");
}

/// Each beside the one before.
#[test]
fn as_many_collections_as_there_can_be() {
    assert_eq!(counts(&told(&filled(&[], &[0xA0, 0xC0]))), "0 None 2048 Some(None)");
}

#[test]
fn as_many_collections_around_as_there_can_be() {
    let told = told(&[&[0xA1, 1].repeat(16)[..], &ONE_BIT, &[0x81, 2], &[0xC0; 16]].concat());
    assert!(told.around(0).eq(0..16));
    assert_eq!(told.application(0), Some(15));
}

/// Seven Pushes, 2,041 that are popped, an eighth one, and what is in force after them.
#[test]
fn as_many_pushes_as_there_can_be() {
    let start = [&ONE_BIT[..], &[0xA4; 7]].concat();
    assert_eq!(counts(&told(&ended(&start, &[0xA4, 0xB4]))), "1 Some((0, 0, None)) 0 None");
}

/// Items of 2 ^ 20 bits.
#[test]
fn as_many_bits_as_there_can_be() {
    let start = [0x76, 0x00, 0x04, 0x96, 0x00, 0x04];
    assert_eq!(counts(&told(&filled(&start, &[0x81, 3]))), "2045 Some((2143289344, 0, None)) 0 None");
}

#[test]
fn a_longer_text_is_refused() {
    let text = [filled(&ONE_BIT, &[0x81, 3]), vec![0x04]].concat();
    let too_long = ParseError { fault: ParseFault::TooLong, offset: 4096 };
    assert_eq!(details(&text), Err(ReaderError::Parse(too_long)));
}

/// 256 fields of one report in an application, with a string each.
#[test]
fn as_many_fields_as_a_descriptor_has() {
    let mut text = filled(&[0xA1, 1, 0x75, 1, 0x95, 1], &[0x79, 9, 0x81, 2]);
    text.truncate(6 + 256 * 4);
    text.push(0xC0);
    let told = told(&text);
    let places = |placed: &mut dyn Iterator<Item = usize>| placed.collect::<Vec<_>>();
    assert_eq!(places(&mut told.data_fields().map(|it| it.place)), Vec::from_iter(0..256));
    assert_eq!(places(&mut told.report(Kind::Input, 0).map(|it| it.place)), Vec::from_iter(0..256));
    assert_eq!(told.padding().count(), 0);
    assert_eq!(told.reports().last().map(|facts| facts.bits), Some(256));
    assert_eq!(told.reports_of(0).last(), Some((Kind::Input, 0)));
    assert_eq!(told.applications_of(Kind::Input, 0).last().map(|found| found.0), Some(0));
    assert_eq!(told.around(255).last(), Some(0));
    assert!((0..256).all(|place| told.strings(place) == [(9, 9)] && told.designators(place).is_empty()));
}

/// 2,046 data items of padding.
#[test]
fn as_much_as_there_can_be_is_asked() {
    let padded = told(&filled(&ONE_BIT, &[0x81, 3]));
    assert_eq!(padded.padding().last().map(|it| it.place), Some(2045));
    assert_eq!(padded.data_fields().count(), 0);
    assert_eq!(padded.reports().map(|facts| facts.bits).collect::<Vec<_>>(), [2046]);
}

/// 2,045 strings or designators of one data item, and of one collection.
#[test]
fn as_many_names_as_there_can_be() {
    let all = vec![(7, 7); 2045];
    let strings = told(&ended(&ONE_BIT, &[0x79, 7]));
    assert_eq!((strings.strings(0), strings.designators(0)), (&all[..], &[][..]));
    let designators = told(&ended(&ONE_BIT, &[0x39, 7]));
    assert_eq!((designators.strings(0), designators.designators(0)), (&[][..], &all[..]));
    let mut text = filled(&[0x0A, 1, 0], &[0x79, 7]);
    text[4093..].copy_from_slice(&[0xA1, 1, 0xC0]);
    assert_eq!(told(&text).collection_strings(0), all);
}

/// A string of each data item, and of the last one alone.
#[test]
fn names_of_as_many_items_as_there_can_be() {
    let each = told(&filled(&ONE_BIT, &[0x79, 7, 0x81, 3]));
    assert!(each.fields.len() == 1023 && (0..1023).all(|place| each.strings(place) == [(7, 7)]));
    let mut text = filled(&ONE_BIT, &[0x81, 3]);
    text[4092..].copy_from_slice(&[0x39, 7, 0x81, 3]);
    let last = told(&text);
    assert!((0..2044).all(|place| last.designators(place).is_empty()));
    assert_eq!((last.designators(2044), last.designators(2045)), (&[(7, 7)][..], &[][..]));
    let mut text = filled(&[], &[0xA0, 0xC0]);
    text[4092..].copy_from_slice(&[0x39, 7, 0xA0, 0xC0]);
    let last = told(&text);
    assert!((0..2046).all(|number| last.collection_designators(number).is_empty()));
    assert_eq!(last.collection_designators(2046), [(7, 7)]);
}

/// A bit whose byte a `usize` of 32 bits does not count: it is none, and not one at the start.
#[test]
fn a_bit_beyond_the_bytes_of_32_bits() {
    let mut bytes = [0x55; 2];
    wuzhikar_hid::parts::field_values::put_number(&mut bytes, 1 << 35, 8, 0xAA);
    assert_eq!(bytes, [0x55; 2]);
    assert_eq!(wuzhikar_reader::parts::host_extract::number_at(&bytes, 1 << 35, 8), 0);
}
