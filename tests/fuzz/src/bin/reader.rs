// SPDX-License-Identifier: MIT OR Apache-2.0
//! A descriptor with a report of it: read, compared with its values, written back.
#![no_main]

use fuzz::Bytes;
use wuzhikar_hid::{Asked, Kind, Reader, Setting, Target};

fuzz::target!(descriptor_and_report);

fn descriptor_and_report(bytes: &[u8]) {
    let mut bytes = Bytes(bytes);
    let length = usize::from(bytes.next_byte()) * 2;
    let text = bytes.take(length);
    let lenient = Reader::lenient(text);
    let Ok(reader) = Reader::new(text) else { return };
    let (same, _) = lenient.expect("lenient takes what is without fault");
    assert_eq!(same.descriptor().fields(), reader.descriptor().fields());
    for kind in [Kind::Input, Kind::Output, Kind::Feature] {
        report(&reader, kind, bytes.0);
    }
}

fn report(reader: &Reader, kind: Kind, report: &[u8]) {
    let Ok(reading) = reader.read(kind, report) else {
        assert!(reader.pressed(kind, report).is_err());
        return;
    };
    let values: Vec<_> = reading.take(1_000).collect();
    let pressed = reader.pressed(kind, report).expect("memory");
    assert!(pressed.is_sorted());
    assert!(
        reader.changes(kind, report, report).is_ok_and(|changed| changed.pressed.is_empty() && changed.released.is_empty())
    );
    for value in &values {
        let _bytes = reader.buffered(kind, report, value.field);
        let _around = reader.detail(value.field).map(|detail| detail.unit_exponents());
    }
    let id = if reader.descriptor().uses_ids() { report[0] } else { 0 };
    let setting = |(n, value): (usize, &u8)| Setting {
        target: Target::Usage { usage: u32::from(*value) << 8 | n as u32, place: n },
        asked: Asked::Value(i64::from(*value)),
    };
    let settings: Vec<_> = report.iter().take(4).enumerate().map(setting).collect();
    let _written = reader.write(kind, id, &settings, Some(report));
    if let Ok(same) = reader.write(kind, id, &[], Some(report)) {
        assert_eq!(same, report[..same.len()], "nothing is set, and something changes");
    }
}
