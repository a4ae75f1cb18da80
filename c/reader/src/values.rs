// SPDX-License-Identifier: MIT OR Apache-2.0
//! The calls of `hid_reader.h` that read and write reports.

use crate::details::{place, put_text};
use crate::edge::{Input, Output, Outputs};
use crate::handles::{both, kind_of, kind_of_report, put_from_reader, put_made, told, with_reader};
use crate::status::Status;
use core::ffi::c_char;
use core::mem::offset_of;
use wuzhikar_hid::{Asked, Detail, Reader, Setting, Target, Value, Within};

/// `hidr_value`
#[repr(C)]
#[derive(Clone, Copy)]
pub struct ValueOut {
    raw: i64,
    usage: u32,
    field: u32,
    place: u16,
    within: u8,
    has_usage: u8,
    item: u32,
}

/// `hidr_fraction`
#[repr(C)]
#[derive(Clone, Copy)]
pub struct Fraction {
    numerator: i64,
    denominator: i64,
    exponent: i64,
}

/// `hidr_setting`. It is read from its bytes, so that nothing is asked of its alignment.
#[repr(C)]
pub struct SettingIn {
    value: i64,
    control: u32,
    place: u32,
    by: u8,
    null: u8,
}

/// So many bytes from one on.
pub fn bytes_at<const N: usize>(bytes: &[u8], first: usize) -> [u8; N] {
    core::array::from_fn(|number| bytes.get(first + number).copied().unwrap_or(0))
}

/// A setting of its bytes.
fn setting_of(bytes: &[u8]) -> Setting {
    let value = i64::from_ne_bytes(bytes_at(bytes, offset_of!(SettingIn, value)));
    let control = u32::from_ne_bytes(bytes_at(bytes, offset_of!(SettingIn, control)));
    let place = u32::from_ne_bytes(bytes_at(bytes, offset_of!(SettingIn, place))) as usize;
    let [by] = bytes_at(bytes, offset_of!(SettingIn, by));
    let [null] = bytes_at(bytes, offset_of!(SettingIn, null));
    let target = match by {
        0 => Target::Usage { usage: control, place },
        1 => Target::Field { field: control as usize, place },
        _ => Target::Field { field: usize::MAX, place },
    };
    Setting { target, asked: if null == 0 { Asked::Value(value) } else { Asked::Null } }
}

/// Writes a report with settings that stand in memory, so many of `size` bytes each, as they are read from these.
pub fn write(
    reader: u64,
    (kind, id): (u8, u8),
    (settings, count, size): (Input, usize, usize),
    read: impl Fn((usize, &[u8])) -> Setting,
    (onto, onto_length): (Input, usize),
    (into, room, length): (Outputs<u8>, usize, Output<usize>),
    which: Output<usize>,
) -> Status {
    told(|| {
        let length = length.place()?;
        let bytes = settings.bytes(count.saturating_mul(size));
        let ((into, bytes), onto) = both(both(into.places(room), bytes), onto.bytes(onto_length))?;
        let report = with_reader(reader, |reader| {
            let kind = kind_of(kind).ok_or(Status::UnknownReport)?;
            let mut settings = Vec::new();
            settings.try_reserve_exact(count).map_err(|_| Status::NoMemory)?;
            settings.extend(bytes.chunks_exact(size).enumerate().map(read));
            reader.write(kind, id, &settings, (!onto.is_empty()).then_some(onto)).map_err(|error| {
                let (status, number) = Status::from_write_error(error);
                if let (Some(number), Some(place)) = (number, which.place_if_any()) {
                    place.put(number);
                }
                status
            })
        })?;
        length.put(into.put_all(report.into_iter()));
        Ok(())
    })
}

#[unsafe(no_mangle)]
pub extern "C" fn hidr_read(
    reader: u64,
    kind: u8,
    report: Input,
    length: usize,
    into: Outputs<ValueOut>,
    room: usize,
    count: Output<usize>,
    rest: Output<usize>,
) -> Status {
    told(|| {
        let count = count.place()?;
        let (into, report) = both(into.places(room), report.bytes(length))?;
        let (told, left) = with_reader(reader, |reader| {
            if into.overlap(report) {
                return Err(Status::Overlap);
            }
            let kind = kind_of_report(kind, report)?;
            let reading = reader.read(kind, report)?;
            let left = reading.rest().len();
            Ok((into.put_all(reading.map(|value| value_out(reader, &value))), left))
        })?;
        count.put(told);
        if let Some(place) = rest.place_if_any() {
            place.put(left);
        }
        Ok(())
    })
}

#[unsafe(no_mangle)]
pub extern "C" fn hidr_buffered(
    reader: u64,
    kind: u8,
    report: Input,
    length: usize,
    field: usize,
    into: Outputs<u8>,
    room: usize,
    count: Output<usize>,
) -> Status {
    put_made(reader, report.bytes(length), (into, room, count), |reader, report| {
        Ok(reader.buffered(kind_of_report(kind, report)?, report, field)?)
    })
}

#[unsafe(no_mangle)]
#[allow(clippy::too_many_arguments)] // as C has them
pub extern "C" fn hidr_changes(
    reader: u64,
    kind: u8,
    before: Input,
    before_length: usize,
    now: Input,
    now_length: usize,
    pressed: Outputs<u32>,
    pressed_room: usize,
    pressed_count: Output<usize>,
    released: Outputs<u32>,
    released_room: usize,
    released_count: Output<usize>,
) -> Status {
    told(|| {
        let counts = both(pressed_count.place(), released_count.place())?;
        let into = both(pressed.places(pressed_room), released.places(released_room));
        let (into, (before, now)) = both(into, both(before.bytes(before_length), now.bytes(now_length)))?;
        let changed = with_reader(reader, |reader| Ok(reader.changes(kind_of_report(kind, before)?, before, now)?))?;
        counts.0.put(into.0.put_all(changed.pressed.into_iter()));
        counts.1.put(into.1.put_all(changed.released.into_iter()));
        Ok(())
    })
}

/// The detail of a field.
fn detail_of(reader: &Reader, field: usize) -> Result<&Detail, Status> {
    reader.detail(field).ok_or(Status::Absent)
}

#[unsafe(no_mangle)]
pub extern "C" fn hidr_physical(reader: u64, field: usize, raw: i64, into: Output<Fraction>) -> Status {
    put_from_reader(reader, into, |reader| {
        let exact = detail_of(reader, field)?.physical_value(raw)?;
        let small = |number: i128| i64::try_from(number).map_err(|_| Status::TooLarge);
        Ok(Fraction { numerator: small(exact.numerator)?, denominator: small(exact.denominator)?, exponent: exact.exponent })
    })
}

#[unsafe(no_mangle)]
pub extern "C" fn hidr_value_of(reader: u64, field: usize, numerator: i64, denominator: u64, raw: Output<i64>) -> Status {
    put_from_reader(reader, raw, |reader| Ok(detail_of(reader, field)?.value_of(numerator, denominator)?))
}

#[unsafe(no_mangle)]
pub extern "C" fn hidr_decimal(
    reader: u64,
    field: usize,
    raw: i64,
    digits: u32,
    into: Outputs<c_char>,
    room: usize,
    length: Output<usize>,
) -> Status {
    told(|| {
        let (length, into) = (length.place()?, into.places(room)?);
        let exact = with_reader(reader, |reader| Ok(detail_of(reader, field)?.physical_value(raw)?))?;
        length.put(put_text(into, |out| exact.write_decimal(digits, out)));
        Ok(())
    })
}

#[unsafe(no_mangle)]
#[allow(clippy::too_many_arguments)] // as C has them
pub extern "C" fn hidr_write(
    reader: u64,
    kind: u8,
    id: u8,
    settings: Input,
    count: usize,
    onto: Input,
    onto_length: usize,
    into: Outputs<u8>,
    room: usize,
    length: Output<usize>,
    which: Output<usize>,
) -> Status {
    let settings = (settings, count, size_of::<SettingIn>());
    let read = |(_, bytes): (usize, &[u8])| setting_of(bytes);
    write(reader, (kind, id), settings, read, (onto, onto_length), (into, room, length), which)
}

fn value_out(reader: &Reader, value: &Value) -> ValueOut {
    ValueOut {
        raw: value.raw,
        usage: value.usage.unwrap_or(0),
        field: value.field as u32,
        place: value.place,
        within: match value.within {
            Within::Range => 0,
            Within::Null => 1,
            Within::Out => 2,
        },
        has_usage: value.usage.is_some().into(),
        item: place(reader.placed(value.field).map(|placed| placed.place)),
    }
}
