//! The lines of `xxd` and of `hexdump -C`: an offset, bytes in hex, and their characters beside them. A `*` says that the line before
//! it is repeated up to the offset of the next one. The characters may be missing; where they stand they are those of the bytes.

use super::{Fault, Form, MOST, Why, digit, lines, pair, words};
use alloc::vec::Vec;

/// A tool that prints lines with offsets.
#[derive(Clone, Copy, PartialEq, Eq)]
pub enum Dump {
    Xxd,
    Hexdump,
}

/// What the lines up to one say.
#[derive(Default)]
struct Dumped {
    bytes: Vec<u8>,
    /// The offset of the first line.
    first: Option<u64>,
    /// The length of the line before, and whether a `*` follows.
    last: usize,
    is_repeated: bool,
}

/// The bytes of the lines, or their first fault.
pub fn read(text: &[u8], dump: Dump) -> Result<Vec<u8>, Fault> {
    let mut dumped = Dumped::default();
    for (at, line) in lines(text) {
        match line.trim_ascii() {
            b"" => {}
            b"*" if dumped.last == 0 => return Err(Fault { at, why: Why::NothingRepeated }),
            b"*" => dumped.is_repeated = true,
            _ => {
                let (offset, behind) = offset_of(line, dump).ok_or(Fault { at, why: Why::NoOffset })?;
                dumped.go_to(at, offset)?;
                dumped.take(at + behind, &line[behind..], dump)?;
            }
        }
    }
    Ok(dumped.bytes)
}

impl Dumped {
    /// Goes on at an offset: the end of what was said, or of what is repeated.
    fn go_to(&mut self, at: usize, offset: u64) -> Result<(), Fault> {
        let first = *self.first.get_or_insert(offset);
        let next = first.saturating_add(self.bytes.len() as u64);
        let missing = offset.checked_sub(next).ok_or(Fault { at, why: Why::WrongOffset(next) })?;
        if core::mem::take(&mut self.is_repeated) {
            let missing = usize::try_from(missing).unwrap_or(usize::MAX);
            if missing > MOST - self.bytes.len().min(MOST) {
                return Err(Fault { at, why: Why::TooMany });
            }
            let line = self.bytes.len() - self.last;
            (line..line + missing).for_each(|place| self.bytes.push(self.bytes[place]));
        } else if missing > 0 {
            return Err(Fault { at, why: Why::WrongOffset(next) });
        }
        Ok(())
    }

    /// Takes what follows an offset.
    fn take(&mut self, at: usize, rest: &[u8], dump: Dump) -> Result<(), Fault> {
        let start = self.bytes.len();
        let end = match dump {
            Dump::Xxd => rest.windows(2).skip(1).position(|two| two == b"  ").map(|end| end + 1),
            Dump::Hexdump => rest.iter().position(|byte| *byte == b'|'),
        };
        let (groups, beside) = rest.split_at(end.unwrap_or(rest.len()));
        for (at, word) in words(at, groups) {
            let is_whole = dump == Dump::Xxd && word.len() % 2 == 0;
            let pairs = word.chunks(if is_whole { 2 } else { word.len() });
            for (place, two) in pairs.enumerate() {
                self.bytes.push(pair(at + 2 * place, two)?);
            }
        }
        let own = &self.bytes[start..];
        self.last = own.len();
        let is_right = match dump {
            Dump::Xxd => beside.trim_ascii().is_empty() || beside.trim_ascii() == characters(own).trim_ascii(),
            Dump::Hexdump => beside.is_empty() || beside.trim_ascii_end() == [b"|", characters(own).as_slice(), b"|"].concat(),
        };
        let gap = beside.len() - beside.trim_ascii_start().len();
        if is_right { Ok(()) } else { Err(Fault { at: at + groups.len() + gap, why: Why::WrongCharacters }) }
    }
}

/// Returns the column of characters that a dump shows beside the bytes: a dot for a byte that is no printable character.
fn characters(bytes: &[u8]) -> Vec<u8> {
    bytes.iter().map(|byte| if matches!(byte, b' '..=b'~') { *byte } else { b'.' }).collect()
}

/// The offset that a line begins with, and where what follows it begins.
fn offset_of(line: &[u8], dump: Dump) -> Option<(u64, usize)> {
    let len = line.iter().take_while(|byte| digit(**byte).is_some()).count();
    let offset = u64::from_str_radix(core::str::from_utf8(&line[..len]).ok()?, 16).ok()?;
    let ends = match dump {
        Dump::Xxd => line.get(len) == Some(&b':'),
        Dump::Hexdump => len >= 7 && line.get(len).is_none_or(|byte| *byte == b' '),
    };
    ends.then_some((offset, len + usize::from(dump == Dump::Xxd)))
}

/// The tool whose mark a line bears: a colon after the offset, or characters between bars.
pub fn marked(line: &[u8]) -> Option<Form> {
    let is_long = |len: usize| len >= 7;
    if offset_of(line, Dump::Xxd).is_some_and(|(_, end)| is_long(end - 1)) {
        return Some(Form::Xxd);
    }
    let has_bars = line.trim_ascii_end().ends_with(b"|");
    offset_of(line, Dump::Hexdump).filter(|_| has_bars).map(|_| Form::Hexdump)
}

/// Whether a text begins as `hexdump` and `od` print words: with an offset of six or seven digits, and a word after it.
pub fn is_of_words(text: &[u8]) -> bool {
    let begins = text.starts_with(b"000000 ") || text.starts_with(b"0000000 ");
    begins && text.iter().all(|byte| digit(*byte).is_some() || byte.is_ascii_whitespace() || *byte == b'*')
}

/// Whether a text of hex digits reads also as lines of hexdump, from offset 0 on.
pub fn is_numbered(text: &[u8]) -> bool {
    text.starts_with(b"00000000 ") && read(text, Dump::Hexdump).is_ok_and(|bytes| !bytes.is_empty())
}
