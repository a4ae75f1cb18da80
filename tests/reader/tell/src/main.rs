//! Tells what `wuzhikar-hid` makes of descriptors and reports, a line for a line of standard input, for a comparison
//! with reference/reader/plain.py.
//!
//! `D HEX` takes a descriptor; `R KIND HEX` reads a report of it, `W KIND ID HEX|- SETTING...` writes one, onto the bytes
//! that are given, with settings as `usage 65584 0=5`, `field 2 0=null`, whose words are joined by `:`.
#![forbid(unsafe_code)]

use std::fmt::Write as _;
use std::io::{BufRead, Write};
use wuzhikar_hid::{Asked, Details, Kind, Reader, ReaderError, Setting, Target, Value, Within, WriteError, details};
use wuzhikar_reader::{extract, parse_lenient};

fn bytes_of(hex: &str) -> Vec<u8> {
    (0..hex.len() / 2).map(|at| u8::from_str_radix(&hex[2 * at..2 * at + 2], 16).expect("hex")).collect()
}

fn hex_of(bytes: &[u8]) -> String {
    bytes.iter().fold(String::new(), |mut hex, byte| {
        let _ = write!(hex, "{byte:02x}");
        hex
    })
}

fn kind_word(kind: Kind) -> &'static str {
    match kind {
        Kind::Input => "input",
        Kind::Output => "output",
        Kind::Feature => "feature",
    }
}

fn kind_of(word: &str) -> Kind {
    match word {
        "input" => Kind::Input,
        "output" => Kind::Output,
        _ => Kind::Feature,
    }
}

fn option(number: Option<impl ToString>) -> String {
    number.map_or("-".into(), |number| number.to_string())
}

fn places(places: impl Iterator<Item = usize>) -> String {
    places.map(|place| place.to_string()).collect::<Vec<_>>().join(",")
}

/// A data item by all that is told of it.
fn tell_item(line: &mut String, told: &Details, place: usize) {
    let detail = &told.fields[place];
    let named =
        |ranges: &[(u32, u32)]| ranges.iter().map(|(first, last)| format!("{first}:{last}")).collect::<Vec<_>>().join(",");
    let dimensions = match detail.unit_exponents() {
        Ok(exponents) => exponents.map(|exponent| exponent.to_string()).join(","),
        Err(why) => format!("{why:?}"),
    };
    let (least, greatest) = detail.physical();
    let around: Vec<String> = told.around(place).map(|outer| outer.to_string()).collect();
    let kind = kind_word(detail.kind);
    let _ = write!(
        line,
        "{} {} {} {} {} {} {} {} {} {least} {greatest} {} {} {} {} {} {} {dimensions};",
        detail.offset,
        kind,
        detail.flags,
        detail.id,
        detail.bit,
        detail.size,
        detail.count,
        detail.min,
        detail.max,
        detail.unit,
        detail.exponent,
        around.join(","),
        option(told.application(place)),
        named(told.strings(place)),
        named(told.designators(place)),
    );
}

fn descriptor(text: &[u8]) -> (String, Option<Reader>) {
    let reader = match Reader::new(text) {
        Ok(reader) => reader,
        Err(ReaderError::Parse(error)) => return (format!("fault {} {}", error.fault.number(), error.offset), None),
        Err(ReaderError::Memory) => return ("memory".into(), None),
    };
    let told = reader.details();
    assert_eq!(Ok(told), details(text).as_ref());
    let mut line = String::new();
    for collection in &told.collections {
        let usage = option(collection.usage);
        let _ = write!(line, "collection {} {} {usage} {};", collection.offset, collection.kind, option(collection.outer));
    }
    for (place, _) in told.applications() {
        let reports: Vec<String> = told.reports_of(place).map(|(kind, id)| format!("{}:{id}", kind_word(kind))).collect();
        let _ = write!(line, "application {place} {};", reports.join(","));
    }
    for report in told.reports() {
        let (kind, id) = (report.kind, report.id);
        let items = places(told.report(kind, id).map(|placed| placed.place));
        let applications = places(told.applications_of(kind, id).map(|(place, _)| place));
        let _ = write!(line, "report {} {id} {} {} ", kind_word(kind), report.bits, report.bytes());
        let _ = write!(line, "{items} {applications};");
    }
    let _ = write!(line, "padding {};", places(told.padding().map(|placed| placed.place)));
    let _ = write!(line, "data {};", places(told.data_fields().map(|placed| placed.place)));
    for place in 0..told.fields.len() {
        tell_item(&mut line, told, place);
    }
    (line, Some(reader))
}

/// The faults that were passed over, the fields, and the bits of the report that each is in.
fn lenient(text: &[u8]) -> String {
    let (reader, made) = match Reader::lenient(text) {
        Ok(made) => made,
        Err(ReaderError::Parse(error)) => return format!("fault {} {}", error.fault.number(), error.offset),
        Err(ReaderError::Memory) => return "memory".into(),
    };
    let passed = made.as_ref().map_or(&[][..], |made| made.passed());
    assert_eq!(parse_lenient(text).map(|(_, passed)| passed).as_deref(), Ok(passed));
    let mut line: String = passed.iter().map(|error| format!("{}:{},", error.fault.number(), error.offset)).collect();
    for (at, field) in reader.descriptor().fields().iter().enumerate() {
        let kind = kind_word(field.kind);
        let numbers = (field.id, field.bit, field.size, field.count, field.min, field.max, field.array);
        let ranges = reader.descriptor().ranges(at);
        let len = reader.descriptor().report_len(field.kind, field.id);
        let _ = write!(line, ";{kind} {numbers:?} {ranges:?} {}", option(len));
    }
    line
}

fn read(reader: &Reader, kind: Kind, report: &[u8]) -> String {
    let mut line = String::new();
    match reader.read(kind, report) {
        Err(error) => format!("{error:?}"),
        Ok(values) => {
            check_read(reader, kind, report);
            for value in values {
                let within = match value.within {
                    Within::Range => "range",
                    Within::Null => "null",
                    Within::Out => "out",
                };
                let physical = match reader.detail(value.field).expect("a field").physical_value(value.raw) {
                    Ok(physical) => format!("{}/{} {}", physical.numerator, physical.denominator, physical.decimal(5)),
                    Err(why) => format!("{why:?}"),
                };
                let _ =
                    write!(line, "{} {} {} {} {within} {physical};", value.field, value.place, option(value.usage), value.raw);
            }
            line
        }
    }
}

/// Whether a value is told to stay as it is where it is written back: of a Variable place one in range, of an Array one that
/// names a usage of a number that its field lists once.
fn is_kept(reader: &Reader, value: &Value) -> bool {
    let usages = || reader.descriptor().usages(value.field);
    let listed = |usage: u32| usages().filter(|listed| *listed == usage).count();
    match value.usage {
        _ if value.within != Within::Range => false,
        _ if !reader.descriptor().fields()[value.field].array => true,
        Some(usage) => usage & 0xFFFF != 0 && listed(usage) == 1,
        None => false,
    }
}

/// A write of what was read gives the same bytes, and what `extract` finds is what was read.
fn check_read(reader: &Reader, kind: Kind, report: &[u8]) {
    let reading = reader.read(kind, report).expect("a report");
    let (id, values): (u8, Vec<Value>) = (reading.id(), reading.collect());
    let kept = values.iter().filter(|value| is_kept(reader, value));
    let settings: Vec<Setting> = kept
        .map(|value| Setting {
            target: Target::Field { field: value.field, place: value.place.into() },
            asked: Asked::Value(value.raw),
        })
        .collect();
    assert_eq!(reader.write(kind, id, &settings, Some(report)).as_deref(), Ok(report));
    if kind == Kind::Input {
        let is_array = |value: &Value| reader.descriptor().fields()[value.field].array;
        let found: Vec<(u32, i64)> = extract(reader.descriptor(), report)
            .expect("a report")
            .iter()
            .filter(|found| found.usage & 0xFFFF != 0)
            .map(|found| (found.usage, found.value))
            .collect();
        let told = values.iter().filter_map(|value| Some((value.usage?, if is_array(value) { 1 } else { value.raw })));
        assert_eq!(found, told.filter(|(usage, _)| usage & 0xFFFF != 0).collect::<Vec<_>>());
    }
}

/// What `extract` finds in a report that was written is what was asked for, where no Array has the usage.
fn check_written(reader: &Reader, kind: Kind, report: &[u8], settings: &[Setting]) {
    if kind != Kind::Input {
        return;
    }
    let found = extract(reader.descriptor(), report).expect("a report");
    for setting in settings {
        if let (Target::Usage { usage, place }, Asked::Value(value)) = (setting.target, setting.asked) {
            let fields = || reader.descriptor().fields().iter().enumerate().filter(|(_, field)| field.kind == kind);
            let listed = |array: bool| {
                fields().any(|(at, field)| field.array == array && reader.descriptor().usages(at).any(|listed| listed == usage))
            };
            let its: Vec<i64> = found.iter().filter(|found| found.usage == usage).map(|found| found.value).collect();
            if !listed(true) && usage & 0xFFFF != 0 {
                assert_eq!(its.get(place), Some(&value));
            } else if !listed(false) && place == 0 && settings.len() == 1 && usage & 0xFFFF != 0 && value == 1 {
                assert!(its.contains(&1));
            }
        }
    }
}

fn setting(word: &str) -> Setting {
    let (target, asked) = word.split_once('=').expect("a value");
    let words: Vec<&str> = target.split(':').collect();
    let number = |at: usize| words[at].parse::<usize>().expect("a number");
    let target = match words[0] {
        "usage" => Target::Usage { usage: number(1) as u32, place: number(2) },
        _ => Target::Field { field: number(1), place: number(2) },
    };
    let asked = if asked == "null" { Asked::Null } else { Asked::Value(asked.parse().expect("a value")) };
    Setting { target, asked }
}

fn written(reader: &Reader, words: &[&str]) -> String {
    let settings: Vec<Setting> = words[3..].iter().map(|word| setting(word)).collect();
    let onto = (words[2] != "-").then(|| bytes_of(words[2].trim_end_matches('.')));
    match reader.write(kind_of(words[0]), words[1].parse().expect("an ID"), &settings, onto.as_deref()) {
        Ok(report) => {
            check_written(reader, kind_of(words[0]), &report, &settings);
            hex_of(&report)
        }
        Err(WriteError::UnknownReport) => "unknown-report".into(),
        Err(WriteError::Short) => "short".into(),
        Err(WriteError::OtherId) => "other-id".into(),
        Err(WriteError::NoUnused(field)) => format!("no-unused {field}"),
        Err(WriteError::Unknown(number)) => format!("unknown {number}"),
        Err(WriteError::Twice(number)) => format!("twice {number}"),
        Err(WriteError::NoNull(number)) => format!("no-null {number}"),
        Err(WriteError::TooLarge(number)) => format!("too-large {number}"),
        Err(WriteError::OutOfRange(number)) => format!("out-of-range {number}"),
        Err(WriteError::NoRoom(number)) => format!("no-room {number}"),
        Err(WriteError::Memory) => "memory".into(),
    }
}

fn main() -> std::io::Result<()> {
    let mut kept = None;
    let mut out = std::io::BufWriter::new(std::io::stdout().lock());
    for line in std::io::stdin().lock().lines() {
        let line = line?;
        let words: Vec<&str> = line.split(' ').collect();
        let told = match (words[0], &kept) {
            ("D", _) => {
                let (told, reader) = descriptor(&bytes_of(words[1]));
                kept = reader;
                told
            }
            ("L", _) => lenient(&bytes_of(words[1])),
            ("R", Some(reader)) => read(reader, kind_of(words[1]), &bytes_of(words[2])),
            ("W", Some(reader)) => written(reader, &words[1..]),
            _ => "no descriptor".into(),
        };
        writeln!(out, "{told}")?;
    }
    out.flush()
}
