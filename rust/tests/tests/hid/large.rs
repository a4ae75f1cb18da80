//! Reports as large as the limits let them be: 256 fields of 1,024 places of 32 bits, a mebibyte.

use wuzhikar_hid::{Asked, Kind, Reader, ReadingError, Setting, Target, WriteError};

fn reader(start: &[u8], again: &[u8], times: usize, end: &[u8]) -> Reader {
    Reader::new(&[start, &again.repeat(times), end].concat()).expect("a descriptor")
}

/// 255 fields of 256 places of a bit and one of 255, all of the usage 00010030h.
fn many_places() -> Reader {
    let start = [0x05, 0x01, 0x15, 0x00, 0x25, 0x01, 0x75, 0x01, 0x96, 0x00, 0x01];
    reader(&start, &[0x09, 0x30, 0x81, 0x02], 255, &[0x95, 0xFF, 0x09, 0x30, 0x81, 0x02])
}

/// Eight Arrays of 1,024 places of a byte, for the usages 00070000h to 000700FFh.
fn many_keys() -> Reader {
    let start = [0x05, 0x07, 0x15, 0x00, 0x26, 0xFF, 0x00, 0x75, 0x08, 0x96, 0x00, 0x04];
    reader(&start, &[0x19, 0x00, 0x29, 0xFF, 0x81, 0x00], 8, &[])
}

/// Eight fields of 1,024 places of a byte with Null State.
fn many_nulls() -> Reader {
    let start = [0x05, 0x01, 0x15, 0x00, 0x26, 0xFE, 0x00, 0x75, 0x08, 0x96, 0x00, 0x04];
    reader(&start, &[0x09, 0x39, 0x81, 0x42], 8, &[])
}

fn at_place(field: usize, place: usize, value: i64) -> Setting {
    Setting { target: Target::Field { field, place }, asked: Asked::Value(value) }
}

fn of_usage(usage: u32, place: usize, value: i64) -> Setting {
    Setting { target: Target::Usage { usage, place }, asked: Asked::Value(value) }
}

fn written(reader: &Reader, settings: &[Setting]) -> Result<Vec<u8>, WriteError> {
    reader.write(Kind::Input, 0, settings, None)
}

fn count(bytes: &[u8], wanted: u8) -> usize {
    bytes.iter().filter(|&&byte| byte == wanted).count()
}

#[test]
fn the_last_of_65535_places() {
    let reader = many_places();
    let report = written(&reader, &[of_usage(0x1_0030, 65_534, 1)]).expect("a report");
    assert_eq!((report.len(), report[8_191], count(&report, 0)), (8_192, 0x40, 8_191));
    assert_eq!(written(&reader, &[of_usage(0x1_0030, 65_535, 1)]), Err(WriteError::Unknown(0)));
    let last_twice = [at_place(255, 254, 1), of_usage(0x1_0030, 65_534, 0)];
    assert_eq!(written(&reader, &last_twice), Err(WriteError::Twice(1)));
}

#[test]
fn each_of_65535_places() {
    let reader = many_places();
    let mut settings: Vec<Setting> = (0..65_535).map(|place| at_place(place / 256, place % 256, 1)).collect();
    let report = written(&reader, &settings).expect("a report");
    assert_eq!((count(&report, 0xFF), report[8_191]), (8_191, 0x7F));
    assert_eq!(reader.read(Kind::Input, &report).expect("a report").filter(|value| value.raw == 1).count(), 65_535);
    settings.push(at_place(0, 0, 1));
    assert_eq!(written(&reader, &settings), Err(WriteError::Twice(65_535)));
}

/// Each key but the first one is set on the last Array, and then one is taken away.
#[test]
fn arrays_of_1024_places() {
    let reader = many_keys();
    let keys: Vec<Setting> = (0x7_0001..0x7_0100).map(|usage| of_usage(usage, 7, 1)).collect();
    let all = written(&reader, &keys).expect("a report");
    assert_eq!((all.len(), all[7_168], all[7_422], count(&all, 0)), (8_192, 1, 255, 7_937));
    let off = reader.write(Kind::Input, 0, &[of_usage(0x7_0081, 7, 0)], Some(&all)).expect("a report");
    assert_eq!((off[7_296], count(&off, 0)), (0, 7_938));
}

#[test]
fn nulls_in_8192_places() {
    let report = written(&many_nulls(), &[at_place(7, 1_023, 5)]).expect("a report");
    assert_eq!((count(&report, 0xFF), report[8_191]), (8_191, 5));
}

/// 256 fields of 1,024 places of 32 bits behind Report ID 255: new and onto, and read.
#[test]
fn each_of_262144_places() {
    let start = [0x05, 0x01, 0x85, 0xFF, 0x15, 0x00, 0x27, 0xFF, 0xFF, 0xFF, 0x7F, 0x75, 0x20, 0x96, 0x00, 0x04];
    let reader = reader(&start, &[0x09, 0x30, 0x81, 0x02], 256, &[]);
    let ends = [at_place(255, 1_023, 0x7FFF_FFFF), at_place(0, 0, 5)];
    let new = reader.write(Kind::Input, 255, &ends, None).expect("a report");
    assert_eq!((new.len(), &new[..5], count(&new, 0)), (1 << 20 | 1, &[255, 5, 0, 0, 0][..], (1 << 20) - 5));
    assert_eq!(new[1 << 20], 0x7F);
    let mut onto = reader.write(Kind::Input, 255, &[at_place(128, 512, 7)], Some(&new)).expect("a report");
    onto.push(9);
    let reading = reader.read(Kind::Input, &onto).expect("a report");
    assert_eq!((reading.id(), reading.rest()), (255, &[9][..]));
    let values: Vec<_> = reading.filter(|value| value.raw != 0).map(|value| (value.field, value.place, value.raw)).collect();
    assert_eq!(values, [(0, 0, 5), (128, 512, 7), (255, 1_023, 0x7FFF_FFFF)]);
    let all = reader.read(Kind::Input, &onto).expect("a report");
    assert_eq!(all.filter(|value| value.usage == Some(0x1_0030)).count(), 1 << 18);
}

/// The same fields, each place with a usage of its own in turn, all on at once and then all off.
#[test]
fn changes_of_262144_places() {
    let start = [0x05, 0x01, 0x85, 0xFF, 0x15, 0x00, 0x27, 0xFF, 0xFF, 0xFF, 0x7F, 0x75, 0x20, 0x96, 0x00, 0x04];
    let reader = reader(&start, &[0x1A, 0x01, 0x00, 0x2A, 0x00, 0x04, 0x81, 0x02], 256, &[]);
    let (mut on, mut off) = (vec![1; 1 << 20 | 1], vec![0; 1 << 20 | 1]);
    (on[0], off[0]) = (255, 255);
    let usages: Vec<u32> = (0x1_0001..=0x1_0400).collect();
    assert_eq!(reader.pressed(Kind::Input, &on).as_ref(), Ok(&usages));
    let pressed = reader.changes(Kind::Input, &off, &on).expect("changes");
    assert_eq!((pressed.pressed, pressed.released), (usages.clone(), vec![]));
    let released = reader.changes(Kind::Input, &on, &off).expect("changes");
    assert_eq!((released.pressed, released.released), (vec![], usages));
}

/// 256 Arrays of one place, each of which names a usage of its own: as many usages as there are fields differ.
#[test]
fn changes_of_256_arrays() {
    let start = [0x05, 0x07, 0x15, 0x00, 0x26, 0xFF, 0x00, 0x75, 0x08, 0x95, 0x01];
    let reader = reader(&start, &[0x19, 0x00, 0x29, 0xFF, 0x81, 0x00], 256, &[]);
    let all: Vec<u8> = (0..=255).collect();
    let changed = reader.changes(Kind::Input, &all, &[0; 256]).expect("changes");
    assert_eq!((changed.pressed.len(), changed.released), (0, (0x7_0001..=0x7_00FF).collect()));
}

/// The last of 256 fields of 1,024 places of 32 bits, as Buffered Bytes behind a bit of padding: 4,096 bytes over two bytes each.
#[test]
fn buffered_bytes_of_1024_places() {
    let padding = [0x85, 0xFF, 0x75, 0x01, 0x95, 0x01, 0xB1, 0x03];
    let start = [&padding[..], &[0x05, 0x01, 0x15, 0x00, 0x27, 0xFF, 0xFF, 0xFF, 0x7F, 0x75, 0x20, 0x96, 0x00, 0x04]].concat();
    let reader = reader(&start, &[0x09, 0x30, 0xB2, 0x02, 0x01], 256, &[]);
    let mut report: Vec<u8> = (0..(1u64 << 20) + 2).map(|at| ((at * at) >> 7) as u8).collect();
    report[0] = 255;
    let last = &report[1 + 255 * 4_096..];
    let wanted: Vec<u8> = last.windows(2).map(|two| two[0] >> 1 | two[1] << 7).collect();
    assert_eq!(reader.buffered(Kind::Feature, &report, 255).as_ref(), Ok(&wanted));
    assert_eq!(wanted.len(), 4_096);
    assert_eq!(reader.buffered(Kind::Feature, &report, 256), Err(ReadingError::NoSuchField));
    assert_eq!(reader.buffered(Kind::Feature, &report[1..], 256), Err(ReadingError::UnknownReport));
}
