//! Sentences for people: what is wrong with a text that is refused, and where. A line and a column are counted from 1, and a column
//! is a byte.

use super::items::fault_words;
use kbsim::parts::script::{Complaint, KEYWORDS, Keyword, Wanted, what_is_wrong};
use kbsim::texts::{Fault, Mark, Why, shown};
use wuzhikar_reader::ParseError;

/// The words of scripts.
const LANGUAGE: &str =
    "scan, scans, poll, setup, out, in, work, workfault, cut, cutwork, reset, entry, slot, leds, set or fetch";

/// How many bytes of an item are shown.
const MOST_OF_ITEM: usize = 16;

/// The length of the longest word that may be meant for one of scripts.
const LONGEST: usize = 18;

/// Says what is wrong with the line of this number of a script for a flash of so many pages.
pub fn line_fault(pages: usize, text: &[u8], number: usize) -> Option<String> {
    if let Some(mark) = Mark::of(text).filter(|_| number == 1) {
        return Some(format!("line 1: {mark}"));
    }
    Some(match what_is_wrong(pages, text, number)? {
        Complaint::Unknown(word) => format!("line {number}: {} is no line of scripts; {}", shown(word), meant(word)),
        Complaint::Words(keyword, count) => {
            format!("line {number}: {} takes {}; here it has {count}", name(keyword), taken(keyword))
        }
        Complaint::Word(word, column, wanted) => {
            let (noun, all) = words_of(wanted);
            let all = all.map_or_else(|| format!("pages are 0 to {}", pages.saturating_sub(1)), String::from);
            format!("line {number}, column {column}: {} is no {noun}; {all}", shown(word))
        }
    })
}

fn name(keyword: Keyword) -> String {
    String::from_utf8_lossy(keyword.spelling()).into_owned()
}

/// Names the word of scripts that is fewest edits away, at most half as many as it has letters; else all words.
fn meant(word: &[u8]) -> String {
    let word = Some(word).filter(|word| word.len() <= LONGEST);
    let edits = |keyword: &Keyword| Some(strsim::generic_levenshtein(&Bytes(word?), &Bytes(keyword.spelling())));
    let near = KEYWORDS.into_iter().filter_map(|keyword| Some((edits(&keyword)?, keyword)));
    let near = near.filter(|(edits, keyword)| *edits <= keyword.spelling().len() / 2).min_by_key(|(edits, _)| *edits);
    near.map_or_else(|| format!("a line begins with {LANGUAGE}"), |(_, keyword)| format!("{} is", name(keyword)))
}

/// Bytes as `strsim` goes over them.
struct Bytes<'b>(&'b [u8]);

impl<'b> IntoIterator for &Bytes<'b> {
    type Item = &'b u8;
    type IntoIter = std::slice::Iter<'b, u8>;

    fn into_iter(self) -> Self::IntoIter {
        self.0.iter()
    }
}

/// What may follow the first word of a line.
fn taken(keyword: Keyword) -> &'static str {
    match keyword {
        Keyword::Scan => "up to 96 keys",
        Keyword::Scans => "a number of scans and up to 96 keys",
        Keyword::Setup => "one word, a packet of 8 bytes",
        Keyword::Out => "one word or none, a packet of 1 to 8 bytes",
        Keyword::WorkFault | Keyword::CutWork => "one word, a mask",
        Keyword::Entry => "two words, a layer and a key",
        Keyword::Slot => "two words, a page and a slot",
        Keyword::Set => "three words, a layer, a key and a code",
        Keyword::Poll | Keyword::In | Keyword::Work | Keyword::Cut | Keyword::Reset | Keyword::Leds | Keyword::Fetch => {
            "no word"
        }
    }
}

/// What a wanted thing is called, and which ones there are; not for pages, whose number the flash says.
fn words_of(wanted: Wanted) -> (&'static str, Option<&'static str>) {
    let (noun, all) = match wanted {
        Wanted::Page => return ("page", None),
        Wanted::Key => ("key", "keys are 0 to 95"),
        Wanted::Layer => ("layer", "layers are 0 to 3"),
        Wanted::Slot => ("slot", "slots are 0 to 511"),
        Wanted::Scans => ("number of scans", "those are 1 to 10000"),
        Wanted::LayerByte => ("layer for set", "those are 0 to 255"),
        Wanted::KeyByte => ("key for set", "those are 0 to 255"),
        Wanted::SetupPacket => ("SETUP packet", "those are 8 bytes in hex"),
        Wanted::Packet => ("packet", "packets are 1 to 8 bytes in hex"),
        Wanted::Mask => ("mask", "masks are 1 to 4096 bytes in hex, or -"),
        Wanted::Code => ("code", "codes are 4 hex digits"),
    };
    (noun, Some(all))
}

/// Says why a text is no report descriptor.
pub fn text_fault(text: &[u8], fault: Fault) -> String {
    let more = if let Why::Ambiguous(..) = fault.why { "; --from says which" } else { "" };
    fault.sentence(text) + more
}

/// Says why a text is not pairs of hex digits.
pub fn digits_fault(text: &[u8], fault: Fault) -> String {
    if let Why::OddDigits(_) = fault.why { fault.words(text) } else { text_fault(text, fault) }
}

/// Says why the line of this number of a recording is no event.
pub fn event_fault(number: u64, line: &[u8], fault: Fault) -> String {
    format!("line {number}, column {}: {}", fault.at + 1, fault.words(line))
}

/// Says why a report descriptor is refused, and at which item (HID 1.11, sections 6.2.2.2 and 6.2.2.3).
pub fn item_fault(text: &[u8], error: ParseError) -> String {
    let rest = text.get(error.offset..).unwrap_or_default();
    let size = match rest {
        [] => 0,
        [0xFE, size, ..] => 3 + usize::from(*size),
        [0xFE] => 1,
        [prefix, ..] => [1, 2, 3, 5][usize::from(prefix % 4)],
    };
    let item = &rest[..size.min(rest.len())];
    let bytes: String = item.iter().take(MOST_OF_ITEM).map(|byte| format!(" {byte:02x}")).collect();
    let more = if item.len() > MOST_OF_ITEM { " .." } else { "" };
    let item = if item.is_empty() { String::new() } else { format!(", item{bytes}{more}") };
    format!("byte {}{item}: {}", error.offset, fault_words(error.fault))
}
