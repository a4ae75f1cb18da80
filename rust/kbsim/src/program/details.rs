//! `parse --details`: a tree of collections and fields, in words.

use super::ends::Ended;
use super::items::flag_words;
use super::texts::Descriptor;
use std::io::{self, Write};
use wuzhikar_hid::{Collection, Detail, Details, Dimension, Reader, UsageName};

/// A collection or a data item, by its place.
enum Node {
    Collection(usize),
    Field(usize),
}

/// The collections and data items as they come in the text, each with how deep it is.
fn nodes(reader: &Reader) -> Vec<(Node, usize)> {
    let told = reader.details();
    let depth = |mut outer: Option<usize>| {
        let mut depth = 0;
        while let Some(place) = outer {
            depth += 1;
            outer = told.collections[place].outer;
        }
        depth
    };
    let mut all: Vec<(usize, Node, usize)> = Vec::new();
    for (place, collection) in told.collections.iter().enumerate() {
        all.push((collection.offset, Node::Collection(place), depth(collection.outer)));
    }
    for (place, detail) in told.fields.iter().enumerate() {
        all.push((detail.offset, Node::Field(place), depth(detail.inside)));
    }
    all.sort_by_key(|(offset, ..)| *offset);
    all.into_iter().map(|(_, node, depth)| (node, depth)).collect()
}

fn collection_words(collection: &Collection) -> String {
    let kind = collection.kind_name().map_or_else(|| format!("collection {:02X}h", collection.kind), String::from);
    match collection.usage {
        Some(usage) => format!("{kind}: {}", UsageName(usage)),
        None => kind,
    }
}

/// The bits of an item, in the words of HID 1.11, section 6.2.2.5.
pub fn bit_words(detail: &Detail) -> Vec<&'static str> {
    let words = flag_words(detail.flags, detail.kind);
    words.into_iter().map(|word| if word == "Nonlinear" { "Non Linear" } else { word }).collect()
}

/// A unit: its name, or its dimensions with their exponents, and the power of ten.
fn unit_words(detail: &Detail) -> String {
    let name = match detail.unit_name() {
        _ if detail.unit == 0 => return String::new(),
        Some(name) => name.to_string(),
        None => match detail.unit_exponents() {
            Err(why) => format!("unit {:X}h ({why})", detail.unit),
            Ok(exponents) => {
                let parts = Dimension::ALL.into_iter().zip(exponents).filter(|(_, exponent)| *exponent != 0);
                let named: Vec<String> = parts.map(|(dimension, exponent)| format!("{dimension:?}^{exponent}")).collect();
                format!("unit {:X}h ({})", detail.unit, named.join(" "))
            }
        },
    };
    if detail.exponent == 0 { name } else { format!("{name} e{}", detail.exponent) }
}

/// The usages of a field, as ranges.
fn usage_words(ranges: &[(u32, u32)]) -> String {
    let name = |(first, last): &(u32, u32)| {
        if first == last { UsageName(*first).to_string() } else { format!("{} to {}", UsageName(*first), UsageName(*last)) }
    };
    match ranges {
        [] => "no usage".into(),
        _ => ranges.iter().map(name).collect::<Vec<_>>().join(", "),
    }
}

fn put_field(
    out: &mut impl Write,
    told: &Details,
    place: usize,
    ranges: Option<&[(u32, u32)]>,
    indent: &str,
) -> io::Result<()> {
    let detail = &told.fields[place];
    let what = ranges.map_or_else(|| "padding".into(), usage_words);
    let id = if detail.id == 0 { String::new() } else { format!(" {}", detail.id) };
    writeln!(out, "{indent}{:?}{id}: {what}", detail.kind)?;
    let Detail { bit, size, count, min, max, .. } = detail;
    writeln!(out, "{indent}    bits {bit} to {}: {count} of {size}; {}", detail.end() - 1, bit_words(detail).join(", "))?;
    if ranges.is_none() {
        return Ok(());
    }
    let (least, greatest) = detail.physical();
    let unit = unit_words(detail);
    let mut line = format!("values {min} to {max}");
    if (least, greatest) != (*min, *max) || !unit.is_empty() {
        line += &format!(", physical {least} to {greatest}");
        line += &if unit.is_empty() { unit } else { format!(" {unit}") };
    }
    for (ranges, word) in [(told.strings(place), "strings"), (told.designators(place), "designators")] {
        let all: Vec<String> = ranges.iter().map(|(first, last)| format!("{first}-{last}")).collect();
        if !all.is_empty() {
            line += &format!(", {word} {}", all.join(" "));
        }
    }
    writeln!(out, "{indent}    {line}")
}

/// Prints the tree of a descriptor, and its reports.
pub fn parse(descriptor: &Descriptor<'_>, out: &mut impl Write) -> Result<(), Ended> {
    let reader = descriptor.reader()?;
    let mut fields = 0;
    for (node, depth) in nodes(&reader) {
        let indent = "  ".repeat(depth);
        match node {
            Node::Collection(place) => {
                writeln!(out, "{indent}{}", collection_words(&reader.details().collections[place]))?;
            }
            Node::Field(place) => {
                let told = reader.details();
                let ranges = (!told.fields[place].is_constant()).then(|| reader.descriptor().ranges(fields));
                fields += usize::from(ranges.is_some());
                put_field(out, told, place, ranges, &indent)?;
            }
        }
    }
    for report in reader.details().reports() {
        let bytes = report.bytes() + u64::from(reader.descriptor().uses_ids());
        let unit = if bytes == 1 { "byte" } else { "bytes" };
        writeln!(out, "{:?} report {}: {} bits, {bytes} {unit}", report.kind, report.id, report.bits)?;
    }
    Ok(())
}
