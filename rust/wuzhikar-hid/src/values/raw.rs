//! Numbers and bytes that are put into a report whatever its extents say, and all controls of one usage. Written by hand.

use super::reader::Reader;
use super::write::{Asked, Setting, Target, WriteError};
use crate::{Field, Kind, ReadingError};
use alloc::vec::Vec;
use core::fmt;

/// Why nothing is put into a report.
#[derive(Clone, Copy, Debug, PartialEq, Eq)]
pub enum RawError {
    /// The descriptor has no such report, or the report is too short.
    Report(ReadingError),
    /// The report has no such field, or the field no such place.
    NoPlace,
    /// There are more bits than the place, the field or the report has.
    TooLarge,
}

impl fmt::Display for RawError {
    fn fmt(&self, f: &mut fmt::Formatter<'_>) -> fmt::Result {
        match self {
            RawError::Report(error) => error.fmt(f),
            RawError::NoPlace => f.write_str("the report has no such field, or the field no such place"),
            RawError::TooLarge => f.write_str("there are more bits than room"),
        }
    }
}

impl core::error::Error for RawError {}

/// Puts bits into bytes, the least significant first.
fn put_bits(bytes: &mut [u8], from: u64, bits: impl Iterator<Item = bool>) {
    for (bit, is_set) in (from..).zip(bits) {
        if let Some(byte) = usize::try_from(bit / 8).ok().and_then(|at| bytes.get_mut(at)) {
            *byte = *byte & !(1 << (bit % 8)) | u8::from(is_set) << (bit % 8);
        }
    }
}

impl Reader {
    /// A field of a whole report, and the report's bytes after its ID.
    fn field_in<'b>(&self, kind: Kind, report: &'b mut [u8], field: usize) -> Result<(Field, &'b mut [u8]), RawError> {
        self.read(kind, report).map_err(RawError::Report)?;
        let ids = usize::from(self.descriptor().uses_ids());
        let id = if ids == 1 { report[0] } else { 0 };
        let found = self.descriptor().fields().get(field).filter(|found| found.kind == kind && found.id == id);
        Ok((*found.ok_or(RawError::NoPlace)?, &mut report[ids..]))
    }

    /// Puts a number into the bits of a place of a field, whatever the logical extents are; no other bit changes. There are
    /// devices that declare extents of 0 to 0, into whose fields no value could be written.
    ///
    /// # Errors
    ///
    /// In this order: `Report` as [`read`](Self::read) refuses it, `NoPlace`, and `TooLarge` if the number has more bits than
    /// the place. Nothing changes then.
    ///
    /// ```
    /// use wuzhikar_hid::{Kind, RawError, Reader};
    ///
    /// // Two places of four bits, whose extents are 0 to 0.
    /// let text = [0x06, 0x00, 0xff, 0x09, 0x01, 0x25, 0x00, 0x75, 4, 0x95, 2, 0x91, 0x02];
    /// let reader = Reader::new(&text)?;
    /// let mut report = [0x11];
    /// reader.put_raw(Kind::Output, &mut report, 0, 1, 0xf)?;
    /// assert_eq!(report, [0xf1]);
    /// assert_eq!(reader.put_raw(Kind::Output, &mut report, 0, 1, 0x10), Err(RawError::TooLarge));
    /// assert_eq!(reader.put_raw(Kind::Output, &mut report, 0, 2, 0), Err(RawError::NoPlace));
    /// # Ok::<(), Box<dyn std::error::Error>>(())
    /// ```
    pub fn put_raw(&self, kind: Kind, report: &mut [u8], field: usize, place: u16, number: u32) -> Result<(), RawError> {
        let (field, bytes) = self.field_in(kind, report, field)?;
        if place >= field.count {
            return Err(RawError::NoPlace);
        }
        if u64::from(number) >> field.size != 0 {
            return Err(RawError::TooLarge);
        }
        let from = field.bit + u64::from(field.size) * u64::from(place);
        put_bits(bytes, from, (0..field.size).map(|bit| u64::from(number) >> bit & 1 != 0));
        Ok(())
    }

    /// Puts bytes into a field from its first bit on, whatever its places and extents are; no other bit changes. Bits of the
    /// last byte after the field's end have to be 0.
    ///
    /// # Errors
    ///
    /// In this order: `Report` as [`read`](Self::read) refuses it, `NoPlace`, and `TooLarge` if the field has fewer bits.
    /// Nothing changes then.
    ///
    /// ```
    /// use wuzhikar_hid::{Kind, RawError, Reader};
    ///
    /// let text = [0x06, 0x00, 0xff, 0x09, 0x01, 0x25, 0x00, 0x75, 8, 0x95, 4, 0x91, 0x02];
    /// let reader = Reader::new(&text)?;
    /// let mut report = [0; 4];
    /// reader.put_bytes(Kind::Output, &mut report, 0, b"abc")?;
    /// assert_eq!(&report, b"abc\0");
    /// assert_eq!(reader.put_bytes(Kind::Output, &mut report, 0, b"abcde"), Err(RawError::TooLarge));
    /// # Ok::<(), Box<dyn std::error::Error>>(())
    /// ```
    pub fn put_bytes(&self, kind: Kind, report: &mut [u8], field: usize, bytes: &[u8]) -> Result<(), RawError> {
        let (field, into) = self.field_in(kind, report, field)?;
        let room = u64::from(field.size) * u64::from(field.count);
        let bits = || (0u64..).zip(bytes.iter().flat_map(|byte| (0..8).map(move |bit| byte >> bit & 1 != 0)));
        if bits().any(|(bit, is_set)| is_set && bit >= room) || bytes.len() as u64 > room.div_ceil(8) {
            return Err(RawError::TooLarge);
        }
        put_bits(into, field.bit, bits().take_while(|(bit, _)| *bit < room).map(|(_, is_set)| is_set));
        Ok(())
    }

    /// Returns a report of this kind and ID (0 without Report IDs) with these bytes after the ID, and 0 where there are fewer.
    ///
    /// # Errors
    ///
    /// `Report` with `UnknownReport` if the descriptor has no such report; `TooLarge` if it has fewer bytes.
    ///
    /// ```
    /// use wuzhikar_hid::{Kind, Reader};
    ///
    /// let text = [0x06, 0x00, 0xff, 0x09, 0x01, 0x85, 7, 0x25, 0x00, 0x75, 8, 0x95, 4, 0x91, 0x02];
    /// let reader = Reader::new(&text)?;
    /// assert_eq!(reader.raw_report(Kind::Output, 7, b"abc")?, b"\x07abc\0");
    /// # Ok::<(), Box<dyn std::error::Error>>(())
    /// ```
    pub fn raw_report(&self, kind: Kind, id: u8, bytes: &[u8]) -> Result<Vec<u8>, RawError> {
        let unknown = RawError::Report(ReadingError::UnknownReport);
        let length = self.descriptor().report_len(kind, id).ok_or(unknown)?;
        let ids = usize::from(self.descriptor().uses_ids());
        let mut report: Vec<u8> = core::iter::repeat_n(id, ids).chain(bytes.iter().copied()).collect();
        if report.len() > length {
            return Err(RawError::TooLarge);
        }
        report.resize(length, 0);
        Ok(report)
    }

    /// Returns the value of each control of a report that has a usage, in their order: each place of a Variable field, and 1 for
    /// each place of an Array that names it.
    ///
    /// # Errors
    ///
    /// As [`read`](Self::read).
    ///
    /// ```
    /// use wuzhikar_hid::{Kind, Reader};
    ///
    /// // Three bytes of one usage.
    /// let text = [0x06, 0x00, 0xff, 0x09, 0x01, 0x26, 0xff, 0x00, 0x75, 8, 0x95, 3, 0x91, 0x02];
    /// let reader = Reader::new(&text)?;
    /// let report = reader.write_all(Kind::Output, 0, 0xff00_0001, &[1, 2, 3], None)?;
    /// assert_eq!(report, [1, 2, 3]);
    /// assert_eq!(reader.read_all(Kind::Output, &report, 0xff00_0001)?, [1, 2, 3]);
    /// # Ok::<(), Box<dyn std::error::Error>>(())
    /// ```
    pub fn read_all(&self, kind: Kind, report: &[u8], usage: u32) -> Result<Vec<i64>, ReadingError> {
        let is_array = |field: usize| self.descriptor().fields().get(field).is_some_and(|field| field.array);
        let values = self.read(kind, report)?.filter(|value| value.usage == Some(usage));
        Ok(values.map(|value| if is_array(value.field) { 1 } else { value.raw }).collect())
    }

    /// Writes a report as [`write`](Self::write) does, with the first controls of a usage set to these values.
    ///
    /// # Errors
    ///
    /// As `write`, where the number of a setting is that of the value.
    pub fn write_all(
        &self,
        kind: Kind,
        id: u8,
        usage: u32,
        values: &[i64],
        onto: Option<&[u8]>,
    ) -> Result<Vec<u8>, WriteError> {
        let setting =
            |(place, value): (usize, &i64)| Setting { target: Target::Usage { usage, place }, asked: Asked::Value(*value) };
        self.write(kind, id, &values.iter().enumerate().map(setting).collect::<Vec<_>>(), onto)
    }
}
