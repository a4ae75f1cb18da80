//! `parse --items`: each item of a report descriptor, up to the first fault, in words (HID 1.11, section 6.2.2).

use super::ends::Ended;
use super::texts::Descriptor;
use std::io::{self, Write};
use wuzhikar_hid::UsageName;
use wuzhikar_reader::parts::descriptor_parse::beside::{Beside, Refusal, parse_beside};
use wuzhikar_reader::parts::descriptor_parse::globals::Globals;
use wuzhikar_reader::parts::descriptor_parse::number::{signed, unsigned};
use wuzhikar_reader::parts::descriptor_parse::state::State;
use wuzhikar_reader::{AllocError, Item, Kind, MainTag, ParseError, ParseFault, Tag};

/// How many collections are open after an item, of those before it.
pub fn depth_behind(item: &Item<'_>, depth: usize) -> usize {
    match item.tag() {
        Tag::Main(MainTag::Collection) => depth + 1,
        Tag::Main(MainTag::EndCollection) => depth.saturating_sub(1),
        _ => depth,
    }
}

/// An item in words: where it begins and ends, and in how many collections it stands.
struct Line {
    offset: usize,
    end: usize,
    depth: usize,
    words: String,
}

/// The items that the parser met, up to its first fault, and how many collections are open.
#[derive(Default)]
struct Lines {
    all: Vec<Line>,
    depth: usize,
}

impl Beside for Lines {
    fn take(&mut self, item: &Item<'_>, before: &State) -> Result<(), AllocError> {
        let head = if item.prefix == 0xFE { 3 } else { 1 };
        let behind = depth_behind(item, self.depth);
        // (An End Collection stands below its Collection.)
        self.all.push(Line {
            offset: item.offset,
            end: item.offset + head + item.bytes.len(),
            depth: self.depth.min(behind),
            words: words_of(item, before.globals()),
        });
        self.depth = behind;
        Ok(())
    }
}

/// Prints a line for each item; of a descriptor with a fault those up to it, and the fault is answered. In the lenient mode they
/// are the items that are read, at the offsets of those that they replace.
pub fn parse(descriptor: &Descriptor<'_>, out: &mut impl Write) -> Result<(), Ended> {
    let mut lines = Lines::default();
    match parse_beside((), descriptor.text(), &mut lines).err() {
        None => Ok(put_lines(descriptor, &lines.all, None, out)?),
        Some(Refusal::Parse(error)) if error.fault != ParseFault::Memory => {
            put_lines(descriptor, &lines.all, Some(error), out)?;
            out.flush()?;
            Err(descriptor.refused(error))
        }
        Some(_) => Err(Ended::memory()),
    }
}

fn put_lines(descriptor: &Descriptor<'_>, lines: &[Line], fault: Option<ParseError>, out: &mut impl Write) -> io::Result<()> {
    let (text, mut end) = (descriptor.text(), 0);
    for line in lines.iter().take_while(|line| fault.is_none_or(|error| line.offset <= error.offset)) {
        end = line.end;
        put_bytes(descriptor.origin(line.offset), &text[line.offset..end], out)?;
        write!(out, "{:indent$}{}", "", line.words, indent = 2 * line.depth)?;
        match fault.filter(|error| error.offset == line.offset) {
            Some(error) => return writeln!(out, "  {}", mark(error.fault)),
            None => writeln!(out)?,
        }
    }
    // (A fault that no item has stands at the end, or at what is left of one.)
    let Some(error) = fault else { return Ok(()) };
    put_bytes(descriptor.origin(error.offset), if error.offset == end { &text[end..] } else { &[] }, out)?;
    writeln!(out, "{}", mark(error.fault))
}

/// The columns on the left of a line: an offset, and bytes.
fn put_bytes(offset: usize, bytes: &[u8], out: &mut impl Write) -> io::Result<()> {
    let shown: String = bytes.iter().map(|byte| format!("{byte:02x} ")).collect();
    write!(out, "{offset:4}  {shown:15} ")
}

fn mark(fault: ParseFault) -> String {
    format!("<-- fault {}: {}", fault.number(), fault_words(fault))
}

/// The name of a fault.
pub fn fault_words(fault: ParseFault) -> &'static str {
    match fault {
        ParseFault::Truncated => "truncated item",
        ParseFault::Delimiter => "delimiter",
        ParseFault::PopEmpty => "Pop without Push",
        ParseFault::PushDeep => "Push too deep",
        ParseFault::BadReportId => "bad Report ID",
        ParseFault::SizeTooLarge => "Report Size too large",
        ParseFault::CountTooLarge => "Report Count too large",
        ParseFault::EndWithoutCollection => "End Collection without Collection",
        ParseFault::CollectionDeep => "Collection too deep",
        ParseFault::UnpairedUsage => "Usage Minimum and Maximum don't pair",
        ParseFault::UsageInverted => "Usage Minimum over Maximum",
        ParseFault::LogicalInverted => "Logical Minimum over Maximum",
        ParseFault::TooManyFields => "too many fields",
        ParseFault::MixedIds => "items with and without a Report ID",
        ParseFault::CollectionOpen => "Collection not ended",
        ParseFault::TooLong => "descriptor too long",
        ParseFault::Memory => "out of memory",
    }
}

/// The name of an item, and in parentheses what its data say.
fn words_of(item: &Item<'_>, globals: &Globals) -> String {
    let name = match item.prefix & 0xFC {
        _ if item.prefix == 0xFE => return "Long Item".into(),
        0x80 => "Input",
        0x90 => "Output",
        0xB0 => "Feature",
        0xA0 => "Collection",
        0xC0 => return "End Collection".into(),
        0x04 => "Usage Page",
        0x14 => "Logical Minimum",
        0x24 => "Logical Maximum",
        0x34 => "Physical Minimum",
        0x44 => "Physical Maximum",
        0x54 => "Unit Exponent",
        0x64 => "Unit",
        0x74 => "Report Size",
        0x84 => "Report ID",
        0x94 => "Report Count",
        0xA4 => return "Push".into(),
        0xB4 => return "Pop".into(),
        0x08 => "Usage",
        0x18 => "Usage Minimum",
        0x28 => "Usage Maximum",
        0x38 => "Designator Index",
        0x48 => "Designator Minimum",
        0x58 => "Designator Maximum",
        0x78 => "String Index",
        0x88 => "String Minimum",
        0x98 => "String Maximum",
        0xA8 => "Delimiter",
        _ => return "Reserved".into(),
    };
    format!("{name} ({})", value_of(item, globals))
}

/// What an item's data say.
fn value_of(item: &Item<'_>, globals: &Globals) -> String {
    let (number, signed) = (unsigned(item.bytes), signed(item.bytes));
    match (item.tag(), item.prefix & 0xFC) {
        (Tag::Main(MainTag::Data(kind)), _) => flag_words(number, kind).join(", "),
        (Tag::Main(_), _) => collection_name(number).map_or_else(|| hex(number), String::from),
        (_, 0x04) => page_words(number % 0x1_0000),
        (_, 0x14 | 0x34 | 0x44) => signed.to_string(),
        (_, 0x24) if globals.min < 0 => signed.to_string(),
        // A digit of four bits in two's complement, or a signed number.
        (_, 0x54) if (8..16).contains(&number) => (i64::from(number) - 16).to_string(),
        (_, 0x54) if number >= 16 => signed.to_string(),
        (_, 0x64) => hex(number),
        // A usage of four bytes has a page of its own (HID 1.11, 6.2.2.8).
        (_, 0x08 | 0x18 | 0x28) if item.bytes.len() == 4 => usage_words(number, number),
        (_, 0x08 | 0x18 | 0x28) => usage_words(u32::from(globals.page) << 16 | number, number),
        _ => number.to_string(),
    }
}

/// The bits of a data item (HID 1.11, 6.2.2.5): the first three in either case, the others where they are set.
pub fn flag_words(flags: u32, kind: Kind) -> Vec<&'static str> {
    let one = |bit: u32, yes: &'static str, no: &'static str| if flags >> bit & 1 == 1 { yes } else { no };
    let mut words = vec![one(0, "Constant", "Data"), one(1, "Variable", "Array"), one(2, "Relative", "Absolute")];
    let rare = ["Wrap", "Nonlinear", "No Preferred", "Null State", "Volatile", "Buffered Bytes"];
    let is_set = |(bit, _): &(u32, &str)| flags >> bit & 1 == 1 && !(*bit == 7 && kind == Kind::Input);
    words.extend((3..).zip(rare).filter(is_set).map(|(_, word)| word));
    words
}

/// What a collection is (HID 1.11, 6.2.2.6).
fn collection_name(number: u32) -> Option<&'static str> {
    let names = ["Physical", "Application", "Logical", "Report", "Named Array", "Usage Switch", "Usage Modifier"];
    names.get(usize::try_from(number).ok()?).copied()
}

/// A usage page: by its name (HUT section 3) where that is told here, from FF00h on as a maker's own.
fn page_words(page: u32) -> String {
    let name = match page {
        0x01 => "Generic Desktop",
        0x02 => "Simulation Controls",
        0x05 => "Game Controls",
        0x06 => "Generic Device Controls",
        0x07 => "Keyboard/Keypad",
        0x08 => "LED",
        0x09 => "Button",
        0x0B => "Telephony Device",
        0x0C => "Consumer",
        0x0D => "Digitizers",
        0x0F => "Physical Input Device",
        0x20 => "Sensors",
        0x84 => "Power",
        0x85 => "Battery System",
        0xFF00.. => return format!("Vendor-defined {}", hex(page)),
        _ => return hex(page),
    };
    name.into()
}

/// A usage with its page in the high half: by its name where that is told here, else by the number.
fn usage_words(usage: u32, number: u32) -> String {
    let is_told = match usage >> 16 {
        0x01 => matches!(usage & 0xFFFF, 0x01 | 0x02 | 0x04..=0x08 | 0x30..=0x39 | 0x48 | 0x80..=0x83),
        0x08 => matches!(usage & 0xFFFF, 0x01..=0x05),
        0x0C => matches!(
            usage & 0xFFFF,
            0x01 | 0x30 | 0xB5..=0xB8 | 0xCD | 0xE0 | 0xE2 | 0xE9 | 0xEA | 0x192 | 0x223 | 0x224 | 0x238
        ),
        0x0D => matches!(usage & 0xFFFF, 0x01 | 0x02 | 0x04 | 0x05 | 0x0E | 0x20 | 0x22 | 0x23 | 0x30 | 0x32 | 0x42
            | 0x44 | 0x45 | 0x47..=0x49 | 0x51 | 0x52 | 0x54..=0x56),
        _ => false,
    };
    if is_told { UsageName(usage).to_string() } else { hex(number) }
}

/// A number in hex as the tables write it.
fn hex(number: u32) -> String {
    format!("{number:02X}h")
}
