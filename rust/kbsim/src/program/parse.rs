//! What a report descriptor declares: its fields, its items, or all of it.

use super::ends::Ended;
use super::texts::{Descriptor, bytes_in, bytes_in_hex, form_of};
use super::{details, files, items, json, sentences};
use clap::ArgMatches;
use kbsim::{LinesError, parse_text};
use std::ffi::OsString;
use std::io::{BufWriter, Write};

/// Prints the keyboard's descriptors.
pub fn describe() -> Result<(), Ended> {
    Ok(kbsim::describe(&mut files::output()?)?)
}

/// Prints what is asked for of the report descriptor that is given.
pub fn parse(given: &ArgMatches) -> Result<(), Ended> {
    let (path, is_lenient) = (given.get_one::<OsString>("file"), given.get_flag("lenient"));
    let text = files::text_of(path, "text")?;
    let is_whole = given.get_flag("details") || given.get_flag("json");
    let bytes =
        if is_whole { bytes_in(&text, form_of(given, None)).map(|(_, bytes)| bytes) } else { bytes_in_hex(&text, given) };
    let descriptor = Descriptor::new(path, bytes.map_err(|ended| ended.naming(path))?, is_lenient)?;
    let mut out = BufWriter::new(files::output()?);
    if given.get_flag("json") {
        json::parse(&descriptor, is_lenient, &mut out)?;
    } else {
        descriptor.put_passed(&mut out)?;
        if given.get_flag("items") {
            items::parse(&descriptor, &mut out)?;
        } else if given.get_flag("details") {
            details::parse(&descriptor, &mut out)?;
        } else {
            fields(&descriptor, &mut out)?;
        }
    }
    Ok(out.flush()?)
}

/// The most bytes that a fault depends on: a longer text is refused at offset 4,096 or before, and an item has at most 258.
const MOST: usize = 8192;

/// Prints a line for each field, by the exported call.
fn fields(descriptor: &Descriptor<'_>, out: &mut impl Write) -> Result<(), Ended> {
    descriptor.checked()?;
    let bytes = descriptor.text();
    let text = hex::encode(&bytes[..bytes.len().min(MOST)]);
    parse_text(&mut text.as_bytes(), out).map_err(|error| match error {
        LinesError::Refused(error) => Ended::Said(sentences::item_fault(bytes, error)).naming(descriptor.path()),
        error => error.into(),
    })
}
