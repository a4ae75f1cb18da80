//! The reader: one report descriptor, its items, its fields, and the reports that are read by it.
//!
//! Numbers of several bytes stand in the buffer with the low byte first.

use crate::memory::Kept;
use crate::{BUFFER, Buffer, REFUSED, written};
use alloc::vec::Vec;
use wuzhikar_hid::{Descriptor, Kind, ParseFault, Reader, ReaderError, ReadingError, Within};
use wuzhikar_reader::{BOOT_DESCRIPTOR, GlobalTag, Items, LocalTag, MainTag, Tag};

static READER: Kept<Option<Reader>> = Kept::new(None);

fn with_reader(act: impl FnOnce(&Reader, &mut Buffer) -> i32) -> i32 {
    READER.with(|reader| match reader {
        Some(reader) => BUFFER.with(|buffer| act(reader, buffer)),
        None => REFUSED,
    })
}

fn with(act: impl FnOnce(&Descriptor, &mut Buffer) -> i32) -> i32 {
    with_reader(|reader, buffer| act(reader.descriptor(), buffer))
}

/// Puts numbers into a record of the buffer.
struct Record<'a>(&'a mut [u8]);

impl Record<'_> {
    /// The next number, as so many bytes.
    fn put(&mut self, number: i64, bytes: usize) {
        let (now, rest) = core::mem::take(&mut self.0).split_at_mut(bytes);
        now.copy_from_slice(&number.to_le_bytes()[..bytes]);
        self.0 = rest;
    }
}

/// Reads the first `length` bytes of the buffer as a report descriptor (`Reader::new`): 0, or the number of its first fault, 1 to
/// 17, whose offset is then the first four bytes of the buffer. The instance holds the descriptor that was read.
#[unsafe(no_mangle)]
pub extern "C" fn descriptor(length: usize) -> i32 {
    BUFFER.with(|buffer| {
        let Some(text) = buffer.get(..length) else { return REFUSED };
        match Reader::new(text) {
            Ok(read) => {
                READER.with(|reader| *reader = Some(read));
                0
            }
            Err(ReaderError::Parse(error)) => {
                Record(buffer).put(error.offset as i64, 4);
                error.fault.number().into()
            }
            Err(ReaderError::Memory) => {
                Record(buffer).put(0, 4);
                ParseFault::Memory.number().into()
            }
        }
    })
}

/// Writes the report descriptor by which a computer reads boot reports. Its length.
#[unsafe(no_mangle)]
pub extern "C" fn boot_descriptor() -> i32 {
    BUFFER.with(|buffer| written(&BOOT_DESCRIPTOR, buffer))
}

/// The item that begins at `from` in the first `length` bytes of the buffer, wherever that text stands: how many bytes it
/// takes, times 256, and its tag as [`tag_number`] gives it. 0 where no whole item stands there.
#[unsafe(no_mangle)]
pub extern "C" fn item(from: usize, length: usize) -> i32 {
    BUFFER.with(|buffer| {
        let Some(text) = buffer.get(from..length) else { return REFUSED };
        let mut items = Items::new(text);
        let Some(Ok(item)) = items.next() else { return 0 };
        let size = match items.next() {
            Some(Ok(next)) => next.offset,
            Some(Err(error)) => error.offset,
            None => text.len(),
        };
        (size as i32) << 8 | tag_number(item.tag())
    })
}

/// A number for each tag: 1 Input, 2 Output, 3 Feature, 4 Collection, 5 End Collection; 11 to 18 the Global items and 21 to
/// 24 the Local ones, in the order of `docs/formats.md`; 0 what is passed over.
fn tag_number(tag: Tag) -> i32 {
    match tag {
        Tag::Main(MainTag::Data(kind)) => kind_number(kind),
        Tag::Main(MainTag::Collection) => 4,
        Tag::Main(MainTag::EndCollection) => 5,
        Tag::Global(GlobalTag::UsagePage) => 11,
        Tag::Global(GlobalTag::LogicalMinimum) => 12,
        Tag::Global(GlobalTag::LogicalMaximum) => 13,
        Tag::Global(GlobalTag::ReportSize) => 14,
        Tag::Global(GlobalTag::ReportId) => 15,
        Tag::Global(GlobalTag::ReportCount) => 16,
        Tag::Global(GlobalTag::Push) => 17,
        Tag::Global(GlobalTag::Pop) => 18,
        Tag::Local(LocalTag::Usage) => 21,
        Tag::Local(LocalTag::UsageMinimum) => 22,
        Tag::Local(LocalTag::UsageMaximum) => 23,
        Tag::Local(LocalTag::Delimiter) => 24,
        Tag::Skipped => 0,
    }
}

fn kind_number(kind: Kind) -> i32 {
    match kind {
        Kind::Input => 1,
        Kind::Output => 2,
        Kind::Feature => 3,
    }
}

fn kind(number: u32) -> Option<Kind> {
    [Kind::Input, Kind::Output, Kind::Feature].into_iter().find(|kind| kind_number(*kind) == number as i32)
}

/// How many fields the descriptor declares.
#[unsafe(no_mangle)]
pub extern "C" fn field_count() -> i32 {
    with(|descriptor, _| descriptor.fields().len() as i32)
}

/// Whether reports begin with a Report ID: 1, or 0.
#[unsafe(no_mangle)]
pub extern "C" fn uses_ids() -> i32 {
    with(|descriptor, _| descriptor.uses_ids().into())
}

/// The bytes of a report, its ID counted; `kind` is 1 input, 2 output, 3 feature. 0 where there is no such report.
#[unsafe(no_mangle)]
pub extern "C" fn report_length(kind_of: u32, id: u8) -> i32 {
    with(|descriptor, _| match kind(kind_of) {
        Some(kind) => descriptor.report_len(kind, id).unwrap_or(0) as i32,
        None => REFUSED,
    })
}

/// Writes a field: kind, Report ID, whether it is an array, bits of a place (a byte each), then its first bit, its places,
/// and its logical extents (eight bytes each). Its length, 36.
#[unsafe(no_mangle)]
pub extern "C" fn field(number: usize) -> i32 {
    with(|descriptor, buffer| {
        let Some(field) = descriptor.fields().get(number) else { return REFUSED };
        let mut record = Record(buffer);
        for small in [kind_number(field.kind), field.id.into(), field.array.into(), field.size.into()] {
            record.put(small.into(), 1);
        }
        for large in [field.bit as i64, field.count.into(), field.min, field.max] {
            record.put(large, 8);
        }
        36
    })
}

/// The number of a collection, or -1 for none.
fn number_of(collection: Option<usize>) -> i64 {
    collection.map_or(-1, |number| number as i64)
}

/// Writes what is declared beside a field: its flags, its unit, the number of the collection that it is in (four bytes each; -1 for
/// none), its unit exponent and its physical extents (eight bytes each), and the name of its unit where it is a usual one. Its
/// length, 36 or more.
#[unsafe(no_mangle)]
pub extern "C" fn detail(number: usize) -> i32 {
    with_reader(|reader, buffer| {
        let Some(detail) = reader.detail(number) else { return REFUSED };
        let name = detail.unit_name().unwrap_or_default().as_bytes();
        let mut record = Record(buffer);
        for small in [detail.flags.into(), detail.unit.into(), number_of(detail.inside)] {
            record.put(small, 4);
        }
        for large in [detail.exponent, detail.physical_min, detail.physical_max] {
            record.put(large, 8);
        }
        for byte in name {
            record.put((*byte).into(), 1);
        }
        36 + name.len() as i32
    })
}

/// Writes a collection: its type, its usage, the number of the one that it is in (four bytes each; -1 for none), and whether it has
/// a usage (a byte). Its length, 13.
#[unsafe(no_mangle)]
pub extern "C" fn collection(number: usize) -> i32 {
    with_reader(|reader, buffer| {
        let Some(collection) = reader.details().collections.get(number) else { return REFUSED };
        let mut record = Record(buffer);
        record.put(collection.kind.into(), 4);
        record.put(collection.usage.unwrap_or_default().into(), 4);
        record.put(number_of(collection.outer), 4);
        record.put(collection.usage.is_some().into(), 1);
        13
    })
}

/// The usage of a place of a field, or usage `place` of an array's list: 32 bits, the page in the high half; 0 where there is
/// none.
#[unsafe(no_mangle)]
pub extern "C" fn usage(field: usize, place: usize) -> i32 {
    with(|descriptor, _| descriptor.usage(field, place).unwrap_or(0) as i32)
}

/// Reads the first `length` bytes of the buffer as an input report (`Reader::read`), and writes its values, but for the first
/// `passed`: field and place (two bytes each), usage (four), value (eight), whether there is a usage, and 0 in range, 1 null or 2
/// out of range (a byte each), for each, over the report and as far as the buffer has room. How many there are in all, or -100
/// less the number of the refusal, 1 to 4.
#[unsafe(no_mangle)]
pub extern "C" fn read(length: usize, passed: usize) -> i32 {
    with_reader(|reader, buffer| {
        let reported = report_of(buffer, length);
        let reading = match reported.as_ref().map(|report| reader.read(Kind::Input, report)) {
            Ok(Ok(reading)) => reading,
            Ok(Err(error)) => return refusal(error),
            Err(why) => return *why,
        };
        let mut count = 0;
        let mut places = buffer.chunks_exact_mut(18);
        for value in reading {
            count += 1;
            let Some(place) = (count > passed).then(|| places.next()).flatten() else { continue };
            let within = match value.within {
                Within::Range => 0,
                Within::Null => 1,
                Within::Out => 2,
            };
            let mut record = Record(place);
            record.put(value.field as i64, 2);
            record.put(value.place.into(), 2);
            record.put(value.usage.unwrap_or(0).into(), 4);
            record.put(value.raw, 8);
            record.put(value.usage.is_some().into(), 1);
            record.put(within, 1);
        }
        count as i32
    })
}

/// Reads a report as [`read`] does, and writes the usages that are on (`Reader::pressed`), four bytes each. How many there are in
/// all.
#[unsafe(no_mangle)]
pub extern "C" fn read_pressed(length: usize, passed: usize) -> i32 {
    with_reader(|reader, buffer| {
        let Some(report) = buffer.get(..length) else { return REFUSED };
        let usages = match reader.pressed(Kind::Input, report) {
            Ok(usages) => usages,
            Err(error) => return refusal(error),
        };
        for (usage, place) in usages.iter().skip(passed).zip(buffer.chunks_exact_mut(4)) {
            place.copy_from_slice(&usage.to_le_bytes());
        }
        usages.len() as i32
    })
}

/// A copy of a report that is overwritten.
fn report_of(buffer: &Buffer, length: usize) -> Result<Vec<u8>, i32> {
    let report = buffer.get(..length).ok_or(REFUSED)?;
    let mut copy = Vec::new();
    copy.try_reserve_exact(length).map_err(|_| refusal(ReadingError::Memory))?;
    copy.extend_from_slice(report);
    Ok(copy)
}

fn refusal(error: ReadingError) -> i32 {
    match error {
        ReadingError::Empty => -101,
        ReadingError::UnknownReport | ReadingError::OtherId | ReadingError::NoSuchField => -102,
        ReadingError::Short => -103,
        ReadingError::Memory => -104,
    }
}
