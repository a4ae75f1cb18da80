//! Names of usages (HID Usage Tables), from `usages.txt`. Written by hand: tested, not proved.

use crate::usages::PAGES;
use alloc::string::ToString;
use core::cmp::Ordering;

/// A page begins with `page`, its number in hex and its name; a line is a usage in hex and its name, and after a bar what
/// stands on a key; `*` and a word name every other usage of the page. The numbers of a page rise, and `*` stands first.
const TABLE: &str = include_str!("usages.txt");

/// The name of a page, and its lines after the first.
fn page(number: u16) -> Option<(&'static str, &'static str)> {
    let place = PAGES.binary_search_by_key(&number, |(number, _, _)| *number).ok()?;
    let (_, begin, end) = PAGES.get(place)?;
    let (first, lines) = TABLE.get(*begin..*end)?.split_once('\n')?;
    Some((first.strip_prefix("page ")?.split_once(' ')?.1, lines))
}

/// The name of a usage among the lines of its page, which are halved until it is found.
fn name_in(mut lines: &'static str, number: u16) -> Option<&'static str> {
    while !lines.is_empty() {
        let mut before = lines.as_bytes().iter().take(lines.len() / 2);
        let start = before.rposition(|byte| *byte == b'\n').map_or(0, |end| end + 1);
        let (line, after) = lines.get(start..)?.split_once('\n')?;
        let (digits, name) = line.split_once(' ')?;
        match u16::from_str_radix(digits, 16).ok()?.cmp(&number) {
            Ordering::Less => lines = after,
            Ordering::Equal => return name.split(" | ").next(),
            Ordering::Greater => lines = lines.get(..start)?,
        }
    }
    None
}

/// Returns the name of a usage page (HUT section 3), as "Generic Desktop"; `None` if none is known here.
pub fn page_name(number: u16) -> Option<&'static str> {
    match page(number) {
        Some((name, _)) => Some(name),
        None => (number >= 0xFF00).then_some("Vendor-defined"),
    }
}

/// Returns the usages that have a name, rising: as [`UsageName`] writes it, or as it stands on a key. ASCII letters are taken
/// in either case, and a name may be that of usages of several pages.
///
/// ```
/// use wuzhikar_hid::{page_name, usages, usages_named};
///
/// assert!(usages_named("volume increment").eq([usages::consumer::VOLUME_INCREMENT]));
/// assert_eq!(page_name(0x0c), Some("Consumer"));
/// ```
pub fn usages_named(name: &str) -> impl Iterator<Item = u32> + '_ {
    let named = PAGES.iter().flat_map(move |(number, begin, end)| {
        let lines = TABLE.get(*begin..*end).unwrap_or("").lines().skip(1);
        lines.filter_map(move |line| numbered(line, name)).map(move |low| u32::from(*number) << 16 | u32::from(low))
    });
    named.chain(unnamed(name))
}

/// Reads a usage without a known name, which is written as its page and its number.
fn unnamed(name: &str) -> Option<u32> {
    let hex = |word: &str| u16::from_str_radix(word.strip_suffix('h').or(word.strip_suffix('H'))?, 16).ok();
    let (page, low) = name.rsplit_once(' ')?;
    let is_named =
        |(number, _, _): &&(u16, usize, usize)| page_name(*number).is_some_and(|name| name.eq_ignore_ascii_case(page));
    let page = hex(page).or_else(|| PAGES.iter().find(is_named).map(|(number, _, _)| *number))?;
    let usage = u32::from(page) << 16 | u32::from(hex(low)?);
    UsageName(usage).to_string().eq_ignore_ascii_case(name).then_some(usage)
}

/// The number of the usage of a line, if it has this name.
fn numbered(line: &str, name: &str) -> Option<u16> {
    let (digits, names) = line.split_once(' ')?;
    if digits == "*" {
        let (word, number) = name.rsplit_once(' ')?;
        let is_number = number.bytes().all(|digit| digit.is_ascii_digit()) && !number.starts_with('0');
        return if is_number && word.eq_ignore_ascii_case(names) { number.parse().ok() } else { None };
    }
    let is_named = names.split(" | ").any(|other| other.eq_ignore_ascii_case(name));
    if is_named { u16::from_str_radix(digits, 16).ok() } else { None }
}

/// The name of a usage, whose page is in its high half.
///
/// It is written as the usage tables have it, as "Wheel". A usage without a known name is written as its page and its number.
/// The constants of [`usages`](crate::usages) have the usages by these names.
///
/// ```
/// use wuzhikar_hid::{UsageName, usages};
///
/// assert_eq!(UsageName(usages::generic_desktop::WHEEL).to_string(), "Wheel");
/// assert_eq!(UsageName(0x0009_0003).to_string(), "Button 3");
/// assert_eq!(UsageName(0x0001_009f).to_string(), "Generic Desktop 9Fh");
/// assert_eq!(UsageName(0xff00_0001).to_string(), "FF00h 01h");
/// ```
#[derive(Clone, Copy, Debug, PartialEq, Eq)]
pub struct UsageName(pub u32);

impl core::fmt::Display for UsageName {
    fn fmt(&self, f: &mut core::fmt::Formatter<'_>) -> core::fmt::Result {
        let (high, low) = ((self.0 >> 16) as u16, self.0 as u16);
        let Some((page, lines)) = page(high) else {
            return write!(f, "{high:02X}h {low:02X}h");
        };
        // Of a page that counts its usages, as Button, it is the word, and the number is what follows.
        let (every, lines) = match lines.strip_prefix("* ").and_then(|rest| rest.split_once('\n')) {
            Some((word, lines)) => (Some(word), lines),
            None => (None, lines),
        };
        match (name_in(lines, low), every) {
            (Some(name), _) => f.write_str(name),
            (None, Some(word)) if low > 0 => write!(f, "{word} {low}"),
            (None, _) => write!(f, "{page} {low:02X}h"),
        }
    }
}

#[cfg(test)]
mod tests {
    use super::{TABLE, UsageName, usages_named};
    use crate::usages;
    use std::collections::BTreeMap;

    /// The usages of the table with their names, line after line.
    fn table() -> BTreeMap<u32, String> {
        let (mut page, mut found) = (0, BTreeMap::new());
        for line in TABLE.lines().filter(|line| !line.starts_with(['#', '*'])) {
            let (first, rest) = line.split_once(' ').unwrap();
            if first == "page" {
                page = u32::from_str_radix(rest.split(' ').next().unwrap(), 16).unwrap();
            } else {
                let usage = page << 16 | u32::from_str_radix(first, 16).unwrap();
                assert!(found.insert(usage, rest.split(" | ").next().unwrap().to_string()).is_none(), "{line}");
            }
        }
        found
    }

    #[test]
    fn each_usage_of_the_table_has_its_name_and_no_other_one() {
        let table = table();
        for page in table.keys().map(|usage| usage >> 16).chain([0x09, 0x0a, 0xff00]) {
            for number in [0, 1, 0x9f, 0x7fff, 0xffff] {
                let usage = page << 16 | number;
                let listed = table.get(&usage).cloned();
                let name = listed.unwrap_or_else(|| match (page, number, crate::page_name(page as u16)) {
                    (9, 1.., _) => format!("Button {number}"),
                    (0xff00, ..) | (_, _, None) => format!("{page:02X}h {number:02X}h"),
                    (_, _, Some(page)) => format!("{page} {number:02X}h"),
                });
                assert_eq!(UsageName(usage).to_string(), name, "{usage:08x}");
            }
        }
        for (usage, name) in &table {
            assert_eq!(UsageName(*usage).to_string(), *name, "{usage:08x}");
        }
        assert!(table.len() > 1_800);
    }

    #[test]
    fn each_usage_of_the_table_is_a_constant_with_its_name_and_no_other_one_is() {
        let (mut last, mut found) = ("", BTreeMap::new());
        for line in include_str!("usages.rs").lines().map(str::trim) {
            if let Some((_, number)) = line.split_once(": u32 = 0x").filter(|(name, _)| *name != "pub const PAGE") {
                let usage = u32::from_str_radix(&number.trim_end_matches(';').replace('_', ""), 16).unwrap();
                assert!(found.insert(usage, last.trim_start_matches("/// ").to_string()).is_none(), "{line}");
            }
            last = line;
        }
        assert_eq!(found, table());
    }

    #[test]
    fn constants_are_named_by_the_rule() {
        use usages::{button, consumer, generic_desktop, keyboard, sport};
        assert_eq!((generic_desktop::X, generic_desktop::D_PAD_UP), (0x0001_0030, 0x0001_0090));
        assert_eq!((keyboard::A, keyboard::N1, keyboard::NON_US_HASH), (0x0007_0004, 0x0007_001e, 0x0007_0032));
        assert_eq!((keyboard::PAGE_UP, keyboard::KEYPAD_SLASH, keyboard::LEFT_GUI), (0x0007_004b, 0x0007_0054, 0x0007_00e3));
        assert_eq!((consumer::VOLUME_INCREMENT, consumer::PLUS_10), (0x000c_00e9, 0x000c_0020));
        assert_eq!((sport::N1_IRON, usages::fido_alliance::PAGE, button::PAGE), (0x0004_0051, 0xf1d0, 9));
    }

    /// Each usage is among those that have its name, also one that is told as a page and a number.
    #[test]
    fn usages_have_their_names() {
        let others = [0x0001_009f, 0x0009_0000, 0x0009_0001, 0x0009_0400, 0x0009_ffff, 0x000c_0000, 0xff00_0001, 0x1234_ffff];
        for usage in table().into_keys().chain(others) {
            let name = UsageName(usage).to_string();
            for name in [name.to_uppercase(), name] {
                assert!(usages_named(&name).any(|other| other == usage), "{name}");
            }
        }
        let numbers = ["FF00h 1h", "FF00 01h", "FF00h +1h", "FF00h 10000h", "Generic Desktop 30h", "0001h 9Fh", "FF00h  01h"];
        let none = ["", " ", "Button", "Button 0", "Button 03", "Button +3", "Button 65536", "No such usage", "page", "| "];
        for none in none.into_iter().chain(numbers) {
            assert_eq!(usages_named(none).count(), 0, "{none}");
        }
        assert_eq!(usages_named("A").collect::<Vec<_>>(), [0x0007_0004]);
    }
}
