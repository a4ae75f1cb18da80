//! The same as JSON; docs/reader.md has the schema.

use super::details::bit_words;
use super::ends::Ended;
use super::items::depth_behind;
use super::texts::Descriptor;
use serde_json::{Value as Json, json};
use std::io::Write;
use wuzhikar_hid::{Detail, Details, Dimension, Reader, ReaderError, UsageName, details};
use wuzhikar_reader::parts::descriptor_parse::beside::{Beside, Refusal, parse_beside};
use wuzhikar_reader::parts::descriptor_parse::globals::Globals;
use wuzhikar_reader::parts::descriptor_parse::number::unsigned;
use wuzhikar_reader::parts::descriptor_parse::state::State;
use wuzhikar_reader::{AllocError, Item, MainTag, Tag, parse as parsed};

/// The version of the schema.
pub const VERSION: u32 = 1;

fn unit(detail: &Detail) -> Json {
    let dimensions: serde_json::Map<String, Json> = Dimension::ALL
        .into_iter()
        .map(|dimension| (format!("{dimension:?}"), json!(detail.unit_exponent_of(dimension))))
        .collect();
    json!({
        "data": detail.unit,
        "system": detail.unit_system(),
        "name": detail.unit_name(),
        "exponent": detail.exponent,
        "dimensions": dimensions,
        "error": detail.unit_exponents().err().map(|why| format!("{why:?}")),
    })
}

/// A data item: its place among these details, its ranges of usages, and its number among the fields.
fn field(details: &Details, place: usize, ranges: &[(u32, u32)], number: Option<usize>) -> Json {
    let detail = &details.fields[place];
    let (least, greatest) = detail.physical();
    let usages: Json = ranges
        .iter()
        .map(|(first, last)| {
            json!({"first": first, "last": last, "first_name": UsageName(*first).to_string(), "last_name": UsageName(*last).to_string()})
        })
        .collect();
    json!({
        "field": number,
        "offset": detail.offset,
        "kind": format!("{:?}", detail.kind).to_lowercase(),
        "id": detail.id,
        "bit": detail.bit,
        "size": detail.size,
        "count": detail.count,
        "flags": detail.flags,
        "says": bit_words(detail),
        "logical": [detail.min, detail.max],
        "physical": [least, greatest],
        "unit": unit(detail),
        "usages": usages,
        "collections": details.around(place).collect::<Vec<_>>(),
        "application": details.application(place),
        "strings": details.strings(place),
        "designators": details.designators(place),
    })
}

/// The data items, those that take no bits among them: each with its place among the details, where it has one.
fn fields(descriptor: &Descriptor<'_>, reader: &Reader) -> Result<Vec<(Option<usize>, Json)>, Refusal> {
    let mut number = 0;
    let mut all: Vec<(usize, Option<usize>, Json)> =
        empty(descriptor.text())?.into_iter().map(|(offset, item)| (offset, None, item)).collect();
    for (place, detail) in reader.details().fields.iter().enumerate() {
        let is_field = !detail.is_constant();
        let ranges = if is_field { reader.descriptor().ranges(number) } else { &[] };
        all.push((detail.offset, Some(place), field(reader.details(), place, ranges, is_field.then_some(number))));
        number += usize::from(is_field);
    }
    all.sort_by_key(|(offset, ..)| *offset);
    let placed = all.into_iter().enumerate().map(|(place, (offset, own, mut item))| {
        (item["place"], item["offset"]) = (json!(place), json!(descriptor.origin(offset)));
        (own, item)
    });
    Ok(placed.collect())
}

/// Strings or designators, as ranges, and the Minimum that waits for a Maximum.
#[derive(Default)]
struct Named {
    ranges: Vec<(u32, u32)>,
    least: Option<u32>,
}

/// The data items that take no bits, since their size or count is 0, each with its offset. What one declares is what one bit of
/// padding in its place does; its usages are those of the Usages before it, on the page in force.
struct Empty<'t> {
    text: &'t [u8],
    /// The items so far that say anything of those after the next Main item: Main items that take bits, and Global items.
    before: Vec<u8>,
    /// The Global items since the latest Main item, Push or Pop: of each tag the last one decides.
    globals: Vec<(u8, &'t [u8])>,
    usages: Vec<u8>,
    /// The strings and the designators since the latest Main item.
    strings: Named,
    designators: Named,
    depth: usize,
    found: Vec<(usize, Json)>,
}

impl<'t> Empty<'t> {
    /// What an item that takes no bits declares.
    fn told(&self, item: &Item<'_>, own: &[u8], globals: &Globals) -> Result<Json, ReaderError> {
        let [low, high] = globals.page.to_le_bytes();
        let (ones, page) = ([0x75, 1, 0x95, 1], [0x06, low, high]);
        let alone = parsed(&[&self.usages, &page[..], &ones, own].concat());
        let ends = vec![0xC0; self.depth];
        let in_force: Vec<u8> = self.globals.iter().flat_map(|(_, own)| own.iter().copied()).collect();
        let mut told = details(&[&self.before[..], &in_force, &ones, &[item.prefix & 0xFC | 1, 1], &ends].concat())?;
        let last = told.fields.len() - 1;
        let detail = &mut told.fields[last];
        (detail.offset, detail.size, detail.count) = (item.offset, globals.size, globals.count);
        detail.flags = unsigned(item.bytes);
        let ranges = alone.as_ref().map_or(&[] as &[_], |alone| alone.ranges(0));
        let mut shown = field(&told, last, ranges, None);
        (shown["strings"], shown["designators"]) = (json!(self.strings.ranges), json!(self.designators.ranges));
        Ok(shown)
    }

    /// Takes a Local item that names controls: an Index, or the Minimum and the Maximum of a range (HID 1.11, section 6.2.2.8).
    fn name(&mut self, item: &Item<'_>) {
        let (tag, number) = (item.prefix >> 4, unsigned(item.bytes));
        let named = if tag < 6 { &mut self.designators } else { &mut self.strings };
        match tag {
            3 | 7 => named.ranges.push((number, number)),
            4 | 8 => named.least = Some(number),
            5 | 9 => named.ranges.extend(named.least.take().map(|least| (least, number))),
            _ => {}
        }
    }

    /// Keeps a Main or a Global item for the items after it.
    fn keep(&mut self, is_global: bool, tag: u8, own: &'t [u8]) {
        let is_push_or_pop = tag == 10 || tag == 11;
        if is_global && !is_push_or_pop {
            self.globals.retain(|(other, _)| *other != tag);
            self.globals.push((tag, own));
            return;
        }
        for (_, own) in self.globals.drain(..) {
            self.before.extend_from_slice(own);
        }
        self.before.extend_from_slice(own);
    }
}

impl Beside for Empty<'_> {
    fn take(&mut self, item: &Item<'_>, before: &State) -> Result<(), AllocError> {
        let (own, globals) = (&self.text[item.offset..item.offset + 1 + item.bytes.len()], before.globals());
        let tag = item.tag();
        let takes_no_bits = matches!(tag, Tag::Main(MainTag::Data(_))) && (globals.size == 0 || globals.count == 0);
        match tag {
            Tag::Local(_) => self.usages.extend_from_slice(own),
            Tag::Skipped if item.prefix & 0x0C == 0x08 => self.name(item),
            Tag::Main(_) if takes_no_bits => {
                let told = self.told(item, own, globals).map_err(|_| AllocError)?;
                self.found.push((item.offset, told));
            }
            _ => {}
        }
        if let Tag::Main(_) = tag {
            self.usages.clear();
            (self.strings, self.designators) = Default::default();
        }
        let is_global = item.prefix & 0x0C == 0x04;
        if is_global || matches!(tag, Tag::Main(_)) && !takes_no_bits {
            self.keep(is_global, item.prefix >> 4, own);
        }
        self.depth = depth_behind(item, self.depth);
        Ok(())
    }
}

fn empty(text: &[u8]) -> Result<Vec<(usize, Json)>, Refusal> {
    let mut empty = Empty {
        text,
        before: Vec::new(),
        globals: Vec::new(),
        usages: Vec::new(),
        strings: Named::default(),
        designators: Named::default(),
        depth: 0,
        found: Vec::new(),
    };
    parse_beside((), text, &mut empty).map(|_| empty.found)
}

/// The collections of a descriptor.
fn collections(descriptor: &Descriptor<'_>, reader: &Reader) -> Json {
    reader
        .details()
        .collections
        .iter()
        .map(|collection| {
            json!({
                "offset": descriptor.origin(collection.offset),
                "type": collection.kind,
                "type_name": collection.kind_name(),
                "usage": collection.usage,
                "name": collection.usage.map(|usage| UsageName(usage).to_string()),
                "outer": collection.outer,
            })
        })
        .collect()
}

/// The reports of a descriptor, whose items stand at these places.
fn reports(reader: &Reader, places: &[usize]) -> Json {
    let told = reader.details();
    told.reports()
        .map(|report| {
            let own: Vec<usize> = told.report(report.kind, report.id).map(|placed| places[placed.place]).collect();
            let bytes = report.bytes() + u64::from(reader.descriptor().uses_ids());
            let kind = format!("{:?}", report.kind).to_lowercase();
            json!({"kind": kind, "id": report.id, "bits": report.bits, "bytes": bytes, "fields": own})
        })
        .collect()
}

/// Prints a descriptor as one object, in the lenient mode with the faults that are passed over. Offsets are those in what is given.
pub fn parse(descriptor: &Descriptor<'_>, is_lenient: bool, out: &mut impl Write) -> Result<(), Ended> {
    let reader = descriptor.reader()?;
    let fields = fields(descriptor, &reader).map_err(|_| Ended::memory())?;
    let places: Vec<usize> = (0..).zip(&fields).filter_map(|(at, (own, _))| own.map(|_| at)).collect();
    let mut all = json!({
        "version": VERSION,
        "uses_ids": reader.descriptor().uses_ids(),
        "collections": collections(descriptor, &reader),
        "reports": reports(&reader, &places),
        "fields": fields.into_iter().map(|(_, item)| item).collect::<Json>(),
    });
    if is_lenient {
        all["passed"] = passed(descriptor);
    }
    Ok(writeln!(out, "{all:#}")?)
}

/// The faults that are passed over, each with its offset.
pub fn passed(descriptor: &Descriptor<'_>) -> Json {
    descriptor.passed().map(|passed| json!({"fault": passed.fault.number(), "offset": passed.offset})).collect()
}

/// The object of the faults that are passed over before reports are read.
pub fn passed_alone(descriptor: &Descriptor<'_>) -> Json {
    json!({"version": VERSION, "passed": passed(descriptor)})
}

/// The object of a report that is refused; of one that is too short, with the number of bytes that it has and that it needs.
pub fn refused(name: &str, lengths: Option<(usize, usize)>) -> Json {
    let mut refused = json!({"version": VERSION, "error": name});
    if let Some((found, needed)) = lengths {
        (refused["found"], refused["needed"]) = (json!(found), json!(needed));
    }
    refused
}
