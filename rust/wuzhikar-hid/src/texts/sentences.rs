//! Sentences about texts that are refused. A line and a column are counted from 1, and a column is a byte.

use super::{Fault, MOST, Mark, Why, mark_len};
use alloc::format;
use alloc::string::String;
use core::fmt;

/// How many bytes of a word are shown.
const MOST_OF_WORD: usize = 40;

impl Fault {
    /// Returns why this text does not say bytes: line, column, and what is wrong there.
    pub fn sentence(self, text: &[u8]) -> String {
        let (line, column) = place_of(text, self.at);
        format!("line {line}, column {column}: {}", self.words(text))
    }

    /// Returns what is wrong there.
    pub fn words(self, text: &[u8]) -> String {
        let word = || shown(word_at(text, self.at));
        if let Some(mark) = Mark::of(text).filter(|_| self.at < 2) {
            return format!("{mark}");
        }
        match self.why {
            Why::OddDigits(count) => format!("the text has {count} hex digits, and a byte takes two"),
            Why::NoDigit => format!("{} is no hex digit", shown(&text[self.at..=self.at])),
            Why::NoByte => format!("{} is no byte; those are 0x0 to 0xff, or 0 to 255 without a 0 in front", word()),
            Why::NoPair => format!("{} is no byte; those are two hex digits", word()),
            Why::NoComma => format!("a comma is wanted before {}", word()),
            Why::OpenComment => "the comment does not end".into(),
            Why::OpenList => "the list that begins here is not closed".into(),
            Why::NoList => "no list of numbers begins here".into(),
            Why::NoOffset => format!("{} is no offset", word()),
            Why::WrongOffset(wanted) => format!("the offset is {}, and {wanted:08x} is wanted", word()),
            Why::WrongCharacters => "the characters beside the bytes are not theirs".into(),
            Why::NothingRepeated => "no line stands before the *".into(),
            Why::TooMany => format!("the lines say more than {MOST} bytes"),
            Why::Words => "an offset of hexdump or od, whose words are in the order of the machine; hexdump -C is read".into(),
            Why::NoLine => format!("{} begins no line that the tool prints", word()),
            Why::WrongCount(count) => format!("{} is not the number of the bytes, which is {count}", word()),
            Why::Second => "a second descriptor or device; one is wanted".into(),
            Why::NoDescriptor => "the text ends without a descriptor".into(),
            Why::Ambiguous(form, other) => format!("the text is {}, and says other bytes as {}", form.name(), other.name()),
            Why::Utf16 => format!("{}", Mark::Utf16),
        }
    }
}

/// What is wrong with a text that begins with it.
impl fmt::Display for Mark {
    fn fmt(&self, f: &mut fmt::Formatter<'_>) -> fmt::Result {
        f.write_str(match self {
            Mark::Utf8 => "a byte order mark (EF BB BF) stands before the text",
            Mark::Utf16 => "the text is in UTF-16; UTF-8 is wanted",
        })
    }
}

/// What stands at a place, up to a blank or a comma, one byte at least.
fn word_at(text: &[u8], place: usize) -> &[u8] {
    let rest = &text[place..];
    let end = rest.iter().position(|byte| matches!(byte, b' ' | b'\t' | b'\r' | b'\n' | b','));
    &rest[..end.map_or(rest.len(), |end| end.max(1))]
}

/// The line and the column of a place. A mark takes no column.
fn place_of(text: &[u8], place: usize) -> (usize, usize) {
    let before = &text[mark_len(text).unwrap_or(0).min(place)..place];
    let lines = before.iter().filter(|byte| **byte == b'\n').count();
    (lines + 1, before.iter().rev().take_while(|byte| **byte != b'\n').count() + 1)
}

/// Returns the bytes of a word as text, of a long one the first 40: characters that can be seen, or else their numbers in hex.
pub fn shown(word: &[u8]) -> String {
    let byte = |byte: &u8| if byte.is_ascii_graphic() { char::from(*byte).into() } else { format!("\\x{byte:02x}") };
    let bytes: String = word.iter().take(MOST_OF_WORD).map(byte).collect();
    if word.len() > MOST_OF_WORD { bytes + ".." } else { bytes }
}
