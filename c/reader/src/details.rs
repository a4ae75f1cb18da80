// SPDX-License-Identifier: MIT OR Apache-2.0
//! The calls of `hid_reader.h` that say what a descriptor declares beside its fields.

use crate::calls::Range;
use crate::edge::{Input, Output, Outputs, Places};
use crate::handles::{Entry, Error, TABLE, both, kind_of, number_of, put_from_reader, put_list, tell, told, with_reader};
use crate::status::Status;
use core::ffi::c_char;
use core::fmt;
use wuzhikar_hid::{Detail, Details, Reader, ReaderError, UsageName, page_name};

/// `HIDR_NONE`
const NONE: u32 = u32::MAX;

/// `hidr_detail`
#[repr(C)]
#[derive(Clone, Copy)]
pub struct DetailOut {
    offset: u64,
    bit: u64,
    min: i64,
    max: i64,
    physical_min: i64,
    physical_max: i64,
    exponent: i64,
    flags: u32,
    size: u32,
    count: u32,
    unit: u32,
    field: u32,
    collection: u32,
    application: u32,
    kind: u8,
    id: u8,
}

/// `hidr_collection`
#[repr(C)]
#[derive(Clone, Copy)]
pub struct CollectionOut {
    offset: u64,
    kind: u32,
    usage: u32,
    outer: u32,
    has_usage: u8,
}

/// `hidr_report`
#[repr(C)]
#[derive(Clone, Copy)]
pub struct ReportOut {
    bits: u64,
    bytes: u64,
    kind: u8,
    id: u8,
}

/// A place in a list, or none.
pub fn place(found: Option<usize>) -> u32 {
    found.and_then(|place| place.try_into().ok()).unwrap_or(NONE)
}

/// A text for C: what there is room for, and a NUL behind it.
pub struct Text {
    places: Places<c_char>,
    length: usize,
}

impl fmt::Write for Text {
    fn write_str(&mut self, text: &str) -> fmt::Result {
        for byte in text.bytes() {
            if self.length + 1 < self.places.room() {
                self.places.set(self.length, byte as c_char);
            }
            self.length += 1;
        }
        Ok(())
    }
}

/// Writes a text, and gives its length without the NUL.
pub fn put_text(places: Places<c_char>, write: impl FnOnce(&mut Text) -> fmt::Result) -> usize {
    let mut text = Text { places, length: 0 };
    let _ = write(&mut text); // a text takes whatever comes
    text.places.set(text.length.min(text.places.room().saturating_sub(1)), 0);
    text.length
}

#[unsafe(no_mangle)]
pub extern "C" fn hidr_reader_open(text: Input, length: usize, reader: Output<u64>, error: Output<Error>) -> Status {
    told(|| {
        let reader = reader.place()?;
        let made = Reader::new(text.bytes(length)?).map_err(|found| refused(found, error))?;
        reader.put(TABLE.open(Entry::Reader(made))?);
        Ok(())
    })
}

#[unsafe(no_mangle)]
pub extern "C" fn hidr_reader_open_lenient(
    text: Input,
    length: usize,
    reader: Output<u64>,
    error: Output<Error>,
    passed: Outputs<Error>,
    room: usize,
    count: Output<usize>,
) -> Status {
    told(|| {
        let ((reader, count), (text, passed)) =
            both(both(reader.place(), count.place()), both(text.bytes(length), passed.places(room)))?;
        let (made, lenient) = Reader::lenient(text).map_err(|found| refused(found, error))?;
        let found = lenient.iter().flat_map(|lenient| lenient.passed()).copied().map(Error::from);
        reader.put(TABLE.open(Entry::Reader(made))?);
        count.put(passed.put_all(found));
        Ok(())
    })
}

/// The status of a text without a reader.
fn refused(found: ReaderError, error: Output<Error>) -> Status {
    match found {
        ReaderError::Parse(found) => tell(found, error.place_if_any()),
        ReaderError::Memory => Status::NoMemory,
    }
}

#[unsafe(no_mangle)]
pub extern "C" fn hidr_detail_count(reader: u64, count: Output<usize>) -> Status {
    put_from_reader(reader, count, |reader| Ok(reader.details().fields.len()))
}

#[unsafe(no_mangle)]
pub extern "C" fn hidr_detail_at(reader: u64, item: usize, into: Output<DetailOut>) -> Status {
    put_from_reader(reader, into, |reader| detail_out(reader, item).ok_or(Status::Absent))
}

fn detail_out(reader: &Reader, item: usize) -> Option<DetailOut> {
    let told = reader.details();
    let detail = told.fields.get(item)?;
    let (physical_min, physical_max) = detail.physical();
    let before = || told.fields[..item].iter().filter(|detail| !detail.is_constant()).count();
    Some(DetailOut {
        offset: detail.offset as u64,
        bit: detail.bit,
        min: detail.min,
        max: detail.max,
        physical_min,
        physical_max,
        exponent: detail.exponent,
        flags: detail.flags,
        size: detail.size,
        count: detail.count,
        unit: detail.unit,
        field: place((!detail.is_constant()).then(before)),
        collection: place(detail.inside),
        application: place(told.application(item)),
        kind: number_of(detail.kind),
        id: detail.id as u8, // of a text that parsed it is 0 to 255
    })
}

#[unsafe(no_mangle)]
pub extern "C" fn hidr_detail_of(reader: u64, field: usize, item: Output<usize>) -> Status {
    put_from_reader(reader, item, |reader| {
        reader.details().data_fields().nth(field).map(|placed| placed.place).ok_or(Status::Absent)
    })
}

#[unsafe(no_mangle)]
pub extern "C" fn hidr_around(reader: u64, item: usize, into: Outputs<u32>, room: usize, count: Output<usize>) -> Status {
    put_list(reader, (into, room, count), |reader, into| {
        reader.details().fields.get(item).ok_or(Status::Absent)?;
        Ok(into.put_all(reader.details().around(item).map(|outer| place(Some(outer)))))
    })
}

#[unsafe(no_mangle)]
pub extern "C" fn hidr_collection_count(reader: u64, count: Output<usize>) -> Status {
    put_from_reader(reader, count, |reader| Ok(reader.details().collections.len()))
}

#[unsafe(no_mangle)]
pub extern "C" fn hidr_collection_at(reader: u64, collection: usize, into: Output<CollectionOut>) -> Status {
    put_from_reader(reader, into, |reader| {
        let found = reader.details().collections.get(collection).ok_or(Status::Absent)?;
        Ok(CollectionOut {
            offset: found.offset as u64,
            kind: found.kind,
            usage: found.usage.unwrap_or(0),
            outer: place(found.outer),
            has_usage: found.usage.is_some().into(),
        })
    })
}

#[unsafe(no_mangle)]
pub extern "C" fn hidr_applications(reader: u64, into: Outputs<u32>, room: usize, count: Output<usize>) -> Status {
    put_list(reader, (into, room, count), |reader, into| {
        Ok(into.put_all(reader.details().applications().map(|(found, _)| place(Some(found)))))
    })
}

/// The report of this kind and ID, as C has it.
fn report_out(reader: &Reader, kind: wuzhikar_hid::Kind, id: u32) -> ReportOut {
    let bits = reader.details().report(kind, id).map(|placed| placed.detail.end()).max().unwrap_or(0);
    let bytes = bits.div_ceil(8) + u64::from(reader.descriptor().uses_ids());
    ReportOut { bits, bytes, kind: number_of(kind), id: id as u8 }
}

#[unsafe(no_mangle)]
pub extern "C" fn hidr_reports(reader: u64, into: Outputs<ReportOut>, room: usize, count: Output<usize>) -> Status {
    put_list(reader, (into, room, count), |reader, into| {
        Ok(into.put_all(reader.details().reports().map(|report| report_out(reader, report.kind, report.id))))
    })
}

#[unsafe(no_mangle)]
pub extern "C" fn hidr_reports_of(
    reader: u64,
    application: usize,
    into: Outputs<ReportOut>,
    room: usize,
    count: Output<usize>,
) -> Status {
    put_list(reader, (into, room, count), |reader, into| {
        let told = reader.details();
        told.collections.get(application).filter(|found| found.is_application()).ok_or(Status::Absent)?;
        Ok(into.put_all(told.reports_of(application).map(|(kind, id)| report_out(reader, kind, id))))
    })
}

#[unsafe(no_mangle)]
pub extern "C" fn hidr_applications_of(
    reader: u64,
    kind: u8,
    id: u8,
    into: Outputs<u32>,
    room: usize,
    count: Output<usize>,
) -> Status {
    put_list(reader, (into, room, count), |reader, into| {
        let (told, id) = (reader.details(), id.into());
        let kind = kind_of(kind).filter(|kind| told.report(*kind, id).next().is_some()).ok_or(Status::Absent)?;
        Ok(into.put_all(told.applications_of(kind, id).map(|(found, _)| place(Some(found)))))
    })
}

#[unsafe(no_mangle)]
pub extern "C" fn hidr_report_details(
    reader: u64,
    kind: u8,
    id: u8,
    into: Outputs<u32>,
    room: usize,
    count: Output<usize>,
) -> Status {
    put_list(reader, (into, room, count), |reader, into| {
        let kind = kind_of(kind).ok_or(Status::Absent)?;
        let mut items = reader.details().report(kind, id.into()).map(|found| place(Some(found.place))).peekable();
        items.peek().ok_or(Status::Absent)?;
        Ok(into.put_all(items))
    })
}

/// Puts the strings or designators that details have.
fn put_names(
    reader: u64,
    into: Outputs<Range>,
    room: usize,
    count: Output<usize>,
    names: impl FnOnce(&Details) -> Option<&[(u32, u32)]>,
) -> Status {
    put_list(reader, (into, room, count), |reader, into| {
        let ranges = names(reader.details()).ok_or(Status::Absent)?;
        Ok(into.put_all(ranges.iter().map(|(first, last)| Range::new(*first, *last))))
    })
}

#[unsafe(no_mangle)]
pub extern "C" fn hidr_strings(reader: u64, item: usize, into: Outputs<Range>, room: usize, count: Output<usize>) -> Status {
    put_names(reader, into, room, count, |told| told.fields.get(item).map(|_| told.strings(item)))
}

#[unsafe(no_mangle)]
pub extern "C" fn hidr_designators(
    reader: u64,
    item: usize,
    into: Outputs<Range>,
    room: usize,
    count: Output<usize>,
) -> Status {
    put_names(reader, into, room, count, |told| told.fields.get(item).map(|_| told.designators(item)))
}

#[unsafe(no_mangle)]
pub extern "C" fn hidr_collection_strings(
    reader: u64,
    collection: usize,
    into: Outputs<Range>,
    room: usize,
    count: Output<usize>,
) -> Status {
    put_names(reader, into, room, count, |told| {
        told.collections.get(collection).map(|_| told.collection_strings(collection))
    })
}

#[unsafe(no_mangle)]
pub extern "C" fn hidr_collection_designators(
    reader: u64,
    collection: usize,
    into: Outputs<Range>,
    room: usize,
    count: Output<usize>,
) -> Status {
    put_names(reader, into, room, count, |told| {
        told.collections.get(collection).map(|_| told.collection_designators(collection))
    })
}

/// Makes a call on a data item of a reader.
fn with_item<R>(reader: u64, item: usize, call: impl FnOnce(&Detail) -> Result<R, Status>) -> Result<R, Status> {
    with_reader(reader, |reader| call(reader.details().fields.get(item).ok_or(Status::Absent)?))
}

#[unsafe(no_mangle)]
pub extern "C" fn hidr_unit_exponents(reader: u64, item: usize, into: Outputs<i8>) -> Status {
    told(|| {
        let into = into.places(6)?;
        into.put(with_item(reader, item, |detail| Ok(detail.unit_exponents()?))?.into_iter());
        Ok(())
    })
}

#[unsafe(no_mangle)]
pub extern "C" fn hidr_unit_name(
    reader: u64,
    item: usize,
    into: Outputs<c_char>,
    room: usize,
    length: Output<usize>,
) -> Status {
    told(|| {
        let (length, into) = (length.place()?, into.places(room)?);
        let name = with_item(reader, item, |detail| Ok(detail.unit_name().unwrap_or("")))?;
        length.put(put_text(into, |out| fmt::Write::write_str(out, name)));
        Ok(())
    })
}

#[unsafe(no_mangle)]
pub extern "C" fn hidr_collection_name(
    reader: u64,
    collection: usize,
    into: Outputs<c_char>,
    room: usize,
    length: Output<usize>,
) -> Status {
    told(|| {
        let (length, into) = (length.place()?, into.places(room)?);
        let name = with_reader(reader, |reader| {
            let found = reader.details().collections.get(collection).ok_or(Status::Absent)?;
            Ok(found.kind_name().unwrap_or(""))
        })?;
        length.put(put_text(into, |out| fmt::Write::write_str(out, name)));
        Ok(())
    })
}

#[unsafe(no_mangle)]
pub extern "C" fn hidr_usage_name(usage: u32, into: Outputs<c_char>, room: usize, length: Output<usize>) -> Status {
    told(|| {
        let (length, into) = (length.place()?, into.places(room)?);
        length.put(put_text(into, |out| fmt::Write::write_fmt(out, format_args!("{}", UsageName(usage)))));
        Ok(())
    })
}

#[unsafe(no_mangle)]
pub extern "C" fn hidr_page_name(page: u16, into: Outputs<c_char>, room: usize, length: Output<usize>) -> Status {
    told(|| {
        let (length, into) = (length.place()?, into.places(room)?);
        length.put(put_text(into, |out| fmt::Write::write_str(out, page_name(page).unwrap_or(""))));
        Ok(())
    })
}
