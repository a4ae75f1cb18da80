//! The text of a report descriptor, as the command line gives it.

use super::ends::{Ended, tell};
use super::files::{named, text_of};
use super::{sentences, words};
use clap::ArgMatches;
use kbsim::texts::{Form, Why, digits, taken};
use std::ffi::OsString;
use std::io::{self, Write};
use wuzhikar_hid::{Lenient, ParseError, ParseFault, Reader, ReaderError};
use wuzhikar_reader::parse;

/// The form of the descriptor's text that is named, or else this one; `None` where the text is looked at.
pub fn form_of(given: &ArgMatches, other: Option<Form>) -> Option<Form> {
    match given.get_one::<String>("from").map(String::as_str) {
        Some(words::AUTO) => None,
        Some(name) => Form::named(name),
        None => other,
    }
}

/// The bytes of a report descriptor in a text, and the form that says them: this one, or that which is found.
pub fn bytes_in(text: &[u8], form: Option<Form>) -> Result<(Form, Vec<u8>), Ended> {
    let taken = match form {
        Some(form) => form.read(text).map(|bytes| (form, bytes)).map_err(|fault| (form, fault)),
        None => taken(text),
    };
    taken.map_err(|(found, fault)| {
        let name = match fault.why {
            Why::Ambiguous(..) => "ambiguous",
            Why::Utf16 if form.is_none() => "utf-16",
            _ => found.name(),
        };
        let told = if form == Some(Form::Hex) { sentences::digits_fault } else { sentences::text_fault };
        Ended::fault(format!("fault {name}"), told(text, fault))
    })
}

/// The bytes of a report descriptor in a text that is hex digits where no form is named. What they are not says in which form
/// they are found.
pub fn bytes_in_hex(text: &[u8], given: &ArgMatches) -> Result<Vec<u8>, Ended> {
    let read = bytes_in(text, form_of(given, Some(Form::Hex))).map(|(_, bytes)| bytes);
    let is_named = given.contains_id("from");
    read.map_err(|ended| match taken(text) {
        Ok((found, _)) if !is_named => ended.adding(&format!("; --from auto reads it as {}", found.name())),
        _ => ended,
    })
}

/// A report descriptor as it is read: its bytes, and in the lenient mode those that are read in place of them.
pub struct Descriptor<'p> {
    /// The path that gives it.
    path: Option<&'p OsString>,
    bytes: Vec<u8>,
    lenient: Option<Lenient>,
    /// The fault that ends the reading in the lenient mode, at its offset in what is read.
    fault: Option<ParseError>,
}

impl<'p> Descriptor<'p> {
    /// These bytes, in the lenient mode or not. That there are none is said on standard error.
    pub fn new(path: Option<&'p OsString>, bytes: Vec<u8>, is_lenient: bool) -> Result<Descriptor<'p>, Ended> {
        if bytes.is_empty() {
            tell(&format!("{}the descriptor is empty", named(path)));
        }
        let mut read = Descriptor { path, bytes, lenient: None, fault: None };
        if is_lenient && parse(&read.bytes).is_err() {
            read.lenient = Lenient::rewrite(&read.bytes).map_err(|_| Ended::memory())?;
            read.fault = read.lenient.as_ref().and_then(|lenient| parse(lenient.text()).err());
        }
        Ok(read)
    }

    /// The path that gives it.
    pub fn path(&self) -> Option<&OsString> {
        self.path
    }

    /// The bytes that are read.
    pub fn text(&self) -> &[u8] {
        self.lenient.as_ref().map_or(&self.bytes, Lenient::text)
    }

    /// The offset in the bytes that are given of what is read at this one.
    pub fn origin(&self, offset: usize) -> usize {
        self.lenient.as_ref().map_or(offset, |lenient| lenient.origin(offset))
    }

    /// The faults that are passed over, of those before the one that ends the reading.
    pub fn passed(&self) -> impl Iterator<Item = &ParseError> {
        let end = self.fault.map_or(usize::MAX, |fault| self.origin(fault.offset));
        self.lenient.iter().flat_map(Lenient::passed).filter(move |passed| passed.offset <= end)
    }

    /// Prints a line for each of them.
    pub fn put_passed(&self, out: &mut impl Write) -> io::Result<()> {
        for passed in self.passed() {
            writeln!(out, "passed {} at {}", passed.fault.number(), passed.offset)?;
        }
        Ok(())
    }

    /// Refuses what the lenient mode has not passed over.
    pub fn checked(&self) -> Result<(), Ended> {
        self.fault.map_or(Ok(()), |fault| Err(self.refused(fault)))
    }

    /// Its reader.
    pub fn reader(&self) -> Result<Reader, Ended> {
        Reader::new(self.text()).map_err(|error| match error {
            ReaderError::Parse(error) => self.refused(error),
            ReaderError::Memory => Ended::memory(),
        })
    }

    /// A fault of what is read, as it is told.
    pub fn refused(&self, error: ParseError) -> Ended {
        if error.fault == ParseFault::Memory {
            return Ended::memory();
        }
        let error = ParseError { offset: self.origin(error.offset), ..error };
        Ended::fault(
            format!("fault parse {} at {}", error.fault.number(), error.offset),
            sentences::item_fault(&self.bytes, error),
        )
        .naming(self.path)
    }
}

/// The report descriptor that a path gives, whose form is looked at unless it is named.
pub fn descriptor_of<'p>(path: Option<&'p OsString>, given: &ArgMatches) -> Result<Descriptor<'p>, Ended> {
    let read = bytes_in(&text_of(path, "text")?, form_of(given, None)).map_err(|ended| ended.naming(path));
    Descriptor::new(path, read?.1, false)
}

/// The bytes of pairs of hex digits; spaces, tabs, CR and LF are dropped.
pub fn bytes_of(text: &[u8]) -> Option<Vec<u8>> {
    digits(text).ok()
}
