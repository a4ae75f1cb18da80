//! `read`: the values of reports as they come.

use super::ends::{Ended, tell};
use super::pieces::{Names, put_number};
use super::texts::{Descriptor, bytes_in, bytes_of, form_of};
use super::usbmon::{self, Address};
use super::{files, json, report_json, sentences, words};
use clap::ArgMatches;
use kbsim::texts::{Form, Line, Mark, line_of};
use std::collections::HashMap;
use std::ffi::OsString;
use std::io::{self, Read, Write};
use std::process::ExitCode;
use wuzhikar_hid::{Changed, Kind, Reader, Reading, ReadingError, Value, Within};

/// How many bytes are asked for at once.
const PIECE: usize = 65_536;

/// The longest line or report that is kept.
const LONGEST: usize = 65_536;

/// A block of usbhid-dump: the number of its first line, and its bytes, unless it holds no report or was refused.
struct Block {
    number: u64,
    report: Option<Vec<u8>>,
}

/// What tells reports.
struct Teller<'a, W> {
    reader: &'a Reader,
    kind: Kind,
    /// The path that gives the reports, and what they are numbered by: a line, or a report.
    path: Option<&'a OsString>,
    numbered: &'static str,
    /// The address that is asked for, and that of the packets so far.
    asked: Option<Address>,
    found: Option<Address>,
    /// Whether usages have their names, and whether a report is an object of JSON.
    names_usages: bool,
    json: bool,
    /// The last report of each ID, where it is told what a report changes.
    last: Option<HashMap<u8, Vec<u8>>>,
    out: W,
    /// The number of the line or report, from 1.
    number: u64,
    refused: bool,
    names: Names,
    /// The line that is told.
    line: Vec<u8>,
    /// The block that the lines stand in.
    block: Option<Block>,
}

impl<W: Write> Teller<'_, W> {
    /// Puts the value of a place of a report, or all bytes of a field of Buffered Bytes at its first place.
    fn put_value(&mut self, report: &[u8], value: &Value) -> Result<(), ReadingError> {
        let detail = self.reader.detail(value.field);
        if detail.is_some_and(|detail| detail.is_buffered()) {
            return if value.place == 0 { self.put_bytes(report, value) } else { Ok(()) };
        }
        if detail.is_some_and(|detail| !detail.is_variable()) {
            // A place of an array says a usage, or nothing.
            if let Some(usage) = value.usage.filter(|usage| usage & 0xFFFF != 0) {
                self.put_usage(b' ', usage);
            }
            return Ok(());
        }
        self.put_place(value);
        self.put_raw(value);
        Ok(())
    }

    /// Puts what a place is called, by its usage or by field and place, with an equals sign.
    fn put_place(&mut self, value: &Value) {
        match value.usage {
            Some(usage) => self.put_usage(b' ', usage),
            None => {
                self.line.extend_from_slice(b" f");
                put_number(&mut self.line, value.field as i64);
                self.line.push(b'[');
                put_number(&mut self.line, value.place.into());
                self.line.push(b']');
            }
        }
        self.line.push(b'=');
    }

    fn put_bytes(&mut self, report: &[u8], value: &Value) -> Result<(), ReadingError> {
        let bytes = self.reader.buffered(self.kind, report, value.field)?;
        self.put_place(value);
        self.line.extend_from_slice(b"bytes:");
        for byte in bytes {
            self.line.extend([byte >> 4, byte & 15].map(|digit| b"0123456789abcdef"[usize::from(digit)]));
        }
        Ok(())
    }

    fn put_raw(&mut self, value: &Value) {
        if value.within == Within::Null {
            self.line.extend_from_slice(b"null");
            return;
        }
        put_number(&mut self.line, value.raw);
        if value.within == Within::Out {
            self.line.extend_from_slice(b" (out of range)");
        }
    }

    /// Puts a usage behind a blank, or behind another sign.
    fn put_usage(&mut self, before: u8, usage: u32) {
        if self.names_usages {
            self.line.push(before);
            return self.line.extend_from_slice(self.names.quoted(usage).as_bytes());
        }
        let digit = |shift: u32| b"0123456789abcdef"[(usage >> shift & 15) as usize];
        let digits = [before, digit(28), digit(24), digit(20), digit(16), digit(12), digit(8), digit(4), digit(0)];
        self.line.extend_from_slice(&digits);
    }

    /// Tells the usages that a report presses and releases, by the last one of its ID; all are new in the first.
    fn tell_changes(&mut self, id: u8, report: &[u8]) -> io::Result<()> {
        let last = self.last.as_mut().and_then(|last| last.insert(id, report.to_vec()));
        let changed = match last {
            None => self.reader.pressed(self.kind, report).map(|pressed| Changed { pressed, ..Changed::default() }),
            Some(last) => self.reader.changes(self.kind, &last, report),
        };
        let Changed { pressed, released } = match changed {
            Err(error) => return self.refuse(&format!("{error:?}")),
            Ok(changed) => changed,
        };
        self.line.clear();
        put_number(&mut self.line, id.into());
        for (sign, usages) in [(b'+', pressed), (b'-', released)] {
            for usage in usages {
                self.line.push(b' ');
                self.put_usage(sign, usage);
            }
        }
        self.line.push(b'\n');
        self.out.write_all(&self.line)
    }

    /// Tells one report.
    fn tell(&mut self, report: &[u8]) -> io::Result<()> {
        let told = match self.reader.read(self.kind, report) {
            Err(error) => Err(error),
            Ok(reading) if self.last.is_some() => return self.tell_changes(reading.id(), report),
            Ok(reading) if self.json => return self.tell_object(report, reading),
            Ok(reading) => self.put_reading(report, reading),
        };
        match told {
            Err(ReadingError::Short) => self.refuse_short(report),
            Err(error) => self.refuse(&format!("{error:?}")),
            Ok(()) => self.out.write_all(&self.line),
        }
    }

    /// Puts the line of a report.
    fn put_reading(&mut self, report: &[u8], reading: Reading<'_>) -> Result<(), ReadingError> {
        self.line.clear();
        put_number(&mut self.line, reading.id().into());
        let rest = reading.rest().len();
        for value in reading {
            self.put_value(report, &value)?;
        }
        if rest > 0 {
            self.line.extend_from_slice(b" and ");
            put_number(&mut self.line, rest as i64);
            self.line.extend_from_slice(b" more");
        }
        self.line.push(b'\n');
        Ok(())
    }

    /// Tells a report as an object of JSON.
    fn tell_object(&mut self, report: &[u8], reading: Reading<'_>) -> io::Result<()> {
        self.line.clear();
        let head = report_json::put_head(&mut self.line, (self.reader, &mut self.names), (self.kind, report), reading.clone());
        match head {
            Err(error) => self.refuse(&format!("{error:?}")),
            Ok(()) => report_json::put_values(&mut self.line, (self.reader, &mut self.names), reading, &mut self.out),
        }
    }

    /// Says that a report is too short, and how long it is to be.
    fn refuse_short(&mut self, report: &[u8]) -> io::Result<()> {
        let (found, needed) = (report.len(), length_at(self.reader, self.kind, report));
        self.say(&format!("{} {}: the report has {found} of its {needed} bytes", self.numbered, self.number));
        self.refuse_with("Short", Some((found, needed)))
    }

    /// Says that a report or line is refused, and goes on.
    fn refuse(&mut self, name: &str) -> io::Result<()> {
        self.refuse_with(name, None)
    }

    fn refuse_with(&mut self, name: &str, lengths: Option<(usize, usize)>) -> io::Result<()> {
        self.refused = true;
        if self.json {
            return writeln!(self.out, "{}", json::refused(name, lengths));
        }
        writeln!(self.out, "fault {name} at {}", self.number)
    }

    /// Prints a sentence about the reports on standard error.
    fn say(&self, sentence: &str) {
        tell(&format!("{}{sentence}", files::named(self.path)));
    }

    /// Prints what a line says: hex digits, a line of usbmon with its data after an equals sign, or one of a recording.
    fn tell_line(&mut self, line: &[u8]) -> Result<(), Ended> {
        self.number += 1;
        let line = if self.number == 1 && Mark::of(line) == Some(Mark::Utf8) { &line[3..] } else { line };
        let is_asked = self.kind == Kind::Input;
        match line_of(line.trim_ascii_end()) {
            Some(Line::Block(holds_report)) => {
                self.end_block()?;
                self.block = Some(Block { number: self.number, report: (holds_report && is_asked).then(Vec::new) });
                Ok(())
            }
            Some(Line::Report(report)) if is_asked => Ok(self.tell(&report)?),
            Some(Line::Damaged(fault)) if is_asked => {
                self.say(&sentences::event_fault(self.number, line, fault));
                Ok(self.refuse("Event")?)
            }
            Some(_) => Ok(()),
            None if self.block.is_some() => Ok(self.take_of_block(line)?),
            None => self.tell_plain(line),
        }
    }

    /// Takes a line of a block: bytes, or the blank line that ends it.
    fn take_of_block(&mut self, line: &[u8]) -> io::Result<()> {
        if line.trim_ascii().is_empty() {
            return self.end_block();
        }
        let Some(kept) = self.block.as_mut().and_then(|block| block.report.as_mut()) else { return Ok(()) };
        let refused = match bytes_of(line) {
            None => "Hex",
            Some(bytes) if kept.len() + bytes.len() > LONGEST => "LongReport",
            Some(bytes) => {
                kept.extend(bytes);
                return Ok(());
            }
        };
        self.block = self.block.take().map(|block| Block { report: None, ..block });
        self.refuse(refused)
    }

    /// Prints the report of a block that ends, under the number of its first line.
    fn end_block(&mut self) -> io::Result<()> {
        let Some(Block { number, report: Some(report) }) = self.block.take() else { return Ok(()) };
        let last = std::mem::replace(&mut self.number, number);
        let told = self.tell(&report);
        self.number = last;
        told
    }

    fn tell_plain(&mut self, line: &[u8]) -> Result<(), Ended> {
        let is_other = usbmon::is_line(line) && !(usbmon::holds_report(line, self.kind) && self.is_of_address(line)?);
        let behind = line.windows(3).position(|three| three == b" = ").map_or(0, |at| at + 3);
        let data = line[behind..].trim_ascii();
        if is_other || data.is_empty() || data.starts_with(b"#") {
            return Ok(());
        }
        Ok(match bytes_of(data) {
            Some(report) => self.tell(&report),
            None => self.refuse("Hex"),
        }?)
    }

    /// Whether a packet of usbmon is of the address that is asked for. Without one, that is the first; another one is refused.
    fn is_of_address(&mut self, line: &[u8]) -> Result<bool, Ended> {
        let Some(found) = Address::from_line(line) else { return Ok(self.asked.is_none()) };
        if self.asked.is_some_and(|asked| asked.meet(found).is_none()) {
            return Ok(false);
        }
        let first = *self.found.get_or_insert(found);
        self.found = first.meet(found);
        if self.found.is_some() {
            return Ok(true);
        }
        let sentence = format!("line {}: a packet of {found} behind those of {first}; --address chooses one", self.number);
        Err(Ended::fault("fault address", sentence).naming(self.path))
    }
}

/// Each line of what is read; the output is flushed before each wait for more.
fn lines(from: &mut dyn Read, teller: &mut Teller<'_, impl Write>) -> Result<(), Ended> {
    let mut piece = vec![0; PIECE];
    let mut kept: Vec<u8> = Vec::new();
    let mut too_long = false;
    loop {
        teller.out.flush()?;
        let len = read_some(from, &mut piece, teller.path)?;
        if len == 0 {
            break;
        }
        for part in piece[..len].split_inclusive(|byte| *byte == b'\n') {
            if kept.len() + part.len() > LONGEST {
                too_long = true;
                kept.clear();
            }
            kept.extend_from_slice(if too_long { &[] } else { part });
            if part.ends_with(b"\n") {
                end_line(teller, &mut kept, &mut too_long)?;
            }
        }
    }
    if !kept.is_empty() || too_long {
        end_line(teller, &mut kept, &mut too_long)?;
    }
    Ok(teller.end_block()?)
}

fn end_line(teller: &mut Teller<'_, impl Write>, kept: &mut Vec<u8>, too_long: &mut bool) -> Result<(), Ended> {
    if std::mem::take(too_long) {
        teller.number += 1;
        teller.refuse("LongLine")?;
    } else {
        teller.tell_line(kept)?;
    }
    kept.clear();
    Ok(())
}

fn read_some(from: &mut dyn Read, piece: &mut [u8], path: Option<&OsString>) -> Result<usize, Ended> {
    loop {
        match from.read(piece) {
            Ok(len) => return Ok(len),
            Err(error) if error.kind() == io::ErrorKind::Interrupted => {}
            Err(error) => return Err(Ended::fault("fault input", format!("the reports can't be read: {error}")).naming(path)),
        }
    }
}

/// The length of the report that these bytes begin with; one byte where there is none.
fn length_at(reader: &Reader, kind: Kind, bytes: &[u8]) -> usize {
    let id = if reader.descriptor().uses_ids() { bytes[0] } else { 0 };
    reader.descriptor().report_len(kind, id).unwrap_or(1)
}

/// Reports in bytes: of a device each read gives one, of a file or pipe each is as long as its ID says.
fn raw(from: &mut dyn Read, is_device: bool, teller: &mut Teller<'_, impl Write>) -> Result<(), Ended> {
    let mut piece = vec![0; PIECE];
    // What is kept of a report, and how many bytes are left of one that is too long.
    let (mut kept, mut left): (Vec<u8>, usize) = (Vec::new(), 0);
    loop {
        teller.out.flush()?;
        let len = read_some(from, &mut piece, teller.path)?;
        if len == 0 {
            break;
        }
        if is_device {
            teller.number += 1;
            teller.tell(&piece[..len])?;
            continue;
        }
        let dropped = left.min(len);
        left -= dropped;
        kept.extend_from_slice(&piece[dropped..len]);
        left += tell_whole(&mut kept, teller)?;
    }
    if !kept.is_empty() {
        teller.number += 1;
        teller.tell(&kept)?;
    }
    Ok(())
}

/// Tells each report that is whole, and drops it. One that is too long is refused: how many bytes of it are still to come.
fn tell_whole(kept: &mut Vec<u8>, teller: &mut Teller<'_, impl Write>) -> io::Result<usize> {
    let mut at = 0;
    while at < kept.len() {
        let (rest, length) = (kept.len() - at, length_at(teller.reader, teller.kind, &kept[at..]));
        if length > LONGEST {
            teller.number += 1;
            teller.refuse("LongReport")?;
            at += rest.min(length);
            if length > rest {
                kept.clear();
                return Ok(length - rest);
            }
            continue;
        }
        if length > rest {
            break;
        }
        teller.number += 1;
        teller.tell(&kept[at..at + length])?;
        at += length;
    }
    kept.drain(..at);
    Ok(0)
}

/// The kind of report that is named.
pub fn kind_of(given: &ArgMatches) -> Kind {
    match given.get_one::<String>("kind").map(String::as_str) {
        Some("output") => Kind::Output,
        Some("feature") => Kind::Feature,
        _ => Kind::Input,
    }
}

/// What tells reports as it is asked for.
fn teller<'a>(given: &ArgMatches, reader: &'a Reader, path: Option<&'a OsString>) -> io::Result<Teller<'a, impl Write>> {
    let is_json = given.get_flag("json");
    Ok(Teller {
        reader,
        kind: kind_of(given),
        path,
        numbered: if given.get_flag("raw") || given.get_flag("live") { "report" } else { "line" },
        asked: None,
        found: None,
        names_usages: given.get_flag("names"),
        json: is_json,
        last: given.get_flag("changes").then(HashMap::new),
        out: io::BufWriter::new(files::output()?),
        number: 0,
        refused: false,
        names: Names::new(is_json),
        line: Vec::new(),
        block: None,
    })
}

/// Tells each report of a file, of standard input or of a device; the status is 1 where one was refused.
pub fn read(given: &ArgMatches) -> Result<ExitCode, Ended> {
    let refused = if given.get_flag("live") { read_live(given) } else { read_reports(given) }?;
    Ok(if refused { ExitCode::FAILURE } else { ExitCode::SUCCESS })
}

/// The reader of the descriptor that is given. The faults that are passed over are told before.
fn reader_of(path: Option<&OsString>, bytes: Vec<u8>, given: &ArgMatches) -> Result<Reader, Ended> {
    let descriptor = Descriptor::new(path, bytes, given.get_flag("lenient"))?;
    if !given.get_flag("json") {
        descriptor.put_passed(&mut files::output()?)?;
    } else if descriptor.checked().is_ok() && descriptor.passed().next().is_some() {
        writeln!(files::output()?, "{}", json::passed_alone(&descriptor))?;
    }
    descriptor.reader()
}

/// Tells the reports of a device of hidraw, as they come.
fn read_live(given: &ArgMatches) -> Result<bool, Ended> {
    let path = given.get_one::<OsString>("descriptor");
    let (mut from, is_device, text) = files::live(path.expect("it is required"))?;
    let reader = reader_of(path, text, given)?;
    let mut teller = teller(given, &reader, path)?;
    raw(&mut from, is_device, &mut teller)?;
    teller.out.flush()?;
    Ok(teller.refused)
}

fn read_reports(given: &ArgMatches) -> Result<bool, Ended> {
    let path = |name| given.get_one::<OsString>(name);
    let (of_descriptor, of_reports) = (path("descriptor"), path("reports"));
    let (form, is_raw) = (form_of(given, None), given.get_flag("raw"));
    let asked = given.get_one::<String>("address").map(|word| Address::read(word)).transpose();
    let asked = asked.map_err(|why| words::refused("read", why))?;
    // (A recording without REPORTS has its own.)
    let has_own = |form: Form| form.is_recording() && of_reports.is_none() && !is_raw;
    if files::is_input(of_descriptor) && files::is_input(of_reports) && !form.is_some_and(has_own) {
        return Err(words::refused("read", "standard input can't be both, the descriptor and the reports").into());
    }
    let (text, is_cut) = files::start_of(of_descriptor, "text")?;
    let read = bytes_in(&text, form).map_err(|ended| ended.naming(of_descriptor));
    // (Of a recording beside its reports the start is enough.)
    if is_cut && !read.as_ref().is_ok_and(|(form, _)| form.is_recording() && !has_own(*form)) {
        return Err(files::too_long(of_descriptor, "text"));
    }
    let (form, bytes) = read?;
    let reader = reader_of(of_descriptor, bytes, given)?;
    let mut teller = teller(given, &reader, if has_own(form) { of_descriptor } else { of_reports })?;
    teller.asked = asked;
    if has_own(form) {
        lines(&mut text.as_slice(), &mut teller)?;
    } else {
        let (mut from, is_device) = files::opened(of_reports)?;
        if is_raw { raw(&mut from, is_device, &mut teller) } else { lines(&mut from, &mut teller) }?;
    }
    teller.out.flush()?;
    if let Some(asked) = teller.asked.filter(|_| teller.found.is_none()) {
        teller.say(&format!("no packet of {asked} with a report came"));
    }
    Ok(teller.refused)
}
