//! `read --json`: the object of a report, a line, written straight out; docs/reader.md has the schema.

use super::json::VERSION;
use super::pieces::{Names, put_number};
use std::fmt::{self, Write as _};
use std::io::{self, Write};
use wuzhikar_hid::{Detail, Kind, Physical, Reader, Reading, ReadingError, Value, Within};

/// Appends what stands before the values of a report: its fields of Buffered Bytes, its ID, and the bytes past its end.
pub fn put_head(
    line: &mut Vec<u8>,
    (reader, names): (&Reader, &mut Names),
    (kind, report): (Kind, &[u8]),
    reading: Reading<'_>,
) -> Result<(), ReadingError> {
    let (id, rest) = (reading.id(), reading.rest());
    let is_first = |value: &Value| value.place == 0 && reader.detail(value.field).is_some_and(Detail::is_buffered);
    line.extend_from_slice(b"{\"buffered\":[");
    for (at, value) in reading.filter(is_first).enumerate() {
        line.extend_from_slice(if at == 0 { b"{\"bytes\":" } else { b",{\"bytes\":" });
        put_bytes(line, &reader.buffered(kind, report, value.field)?);
        put_key(line, b",\"field\":", value.field as i64);
        put_name(line, value.usage, names);
        put_usage(line, value.usage);
        line.push(b'}');
    }
    put_key(line, b"],\"id\":", id.into());
    line.extend_from_slice(b",\"rest\":");
    put_bytes(line, rest);
    line.extend_from_slice(b",\"values\":[");
    Ok(())
}

/// Writes the values of a report and the end of its object, by way of a line that holds what stands before them.
pub fn put_values(
    line: &mut Vec<u8>,
    (reader, names): (&Reader, &mut Names),
    reading: Reading<'_>,
    out: &mut impl Write,
) -> io::Result<()> {
    for (at, value) in reading.enumerate() {
        if at > 0 {
            line.push(b',');
        }
        put_value(line, (reader, names), &value);
        out.write_all(line)?;
        line.clear();
    }
    put_key(line, b"],\"version\":", VERSION.into());
    line.extend_from_slice(b"}\n");
    out.write_all(line)
}

fn put_value(line: &mut Vec<u8>, (reader, names): (&Reader, &mut Names), value: &Value) {
    put_key(line, b"{\"field\":", value.field as i64);
    put_name(line, value.usage, names);
    match reader.detail(value.field).and_then(|detail| detail.physical_value(value.raw).ok()) {
        None => line.extend_from_slice(b",\"physical\":null"),
        Some(exact) => put_physical(line, &exact),
    }
    put_key(line, b",\"place\":", value.place.into());
    put_usage(line, value.usage);
    put_key(line, b",\"value\":", value.raw);
    line.extend_from_slice(match value.within {
        Within::Range => b",\"within\":\"range\"}",
        Within::Null => b",\"within\":\"null\"}",
        Within::Out => b",\"within\":\"out\"}",
    });
}

fn put_physical(line: &mut Vec<u8>, exact: &Physical) {
    let mut text = Text(line);
    // (A line takes what is written into it.)
    let _ = text.write_str(",\"physical\":{\"decimal\":\"");
    let _ = if (exact.denominator, exact.exponent) == (1, 0) {
        text.put_wide(exact.numerator)
    } else {
        exact.write_decimal(6, &mut text)
    };
    let _ = text.write_str("\",\"denominator\":\"");
    let _ = text.put_wide(exact.denominator);
    put_key(line, b"\",\"exponent\":", exact.exponent);
    line.extend_from_slice(b",\"numerator\":\"");
    let _ = Text(line).put_wide(exact.numerator);
    line.extend_from_slice(b"\"}");
}

/// A line, as text is written into it.
struct Text<'l>(&'l mut Vec<u8>);

impl Text<'_> {
    fn put_wide(&mut self, number: i128) -> fmt::Result {
        match i64::try_from(number) {
            Ok(number) => put_number(self.0, number),
            Err(_) => write!(self, "{number}")?,
        }
        Ok(())
    }
}

impl fmt::Write for Text<'_> {
    fn write_str(&mut self, text: &str) -> fmt::Result {
        self.0.extend_from_slice(text.as_bytes());
        Ok(())
    }
}

fn put_key(line: &mut Vec<u8>, key: &[u8], number: i64) {
    line.extend_from_slice(key);
    put_number(line, number);
}

fn put_usage(line: &mut Vec<u8>, usage: Option<u32>) {
    match usage {
        Some(usage) => put_key(line, b",\"usage\":", usage.into()),
        None => line.extend_from_slice(b",\"usage\":null"),
    }
}

fn put_name(line: &mut Vec<u8>, usage: Option<u32>, names: &mut Names) {
    line.extend_from_slice(b",\"name\":");
    line.extend_from_slice(usage.map_or("null", |usage| names.quoted(usage)).as_bytes());
}

fn put_bytes(line: &mut Vec<u8>, bytes: &[u8]) {
    for (at, byte) in bytes.iter().enumerate() {
        line.push(if at == 0 { b'[' } else { b',' });
        put_number(line, (*byte).into());
    }
    line.extend_from_slice(if bytes.is_empty() { b"[]" } else { b"]" });
}
