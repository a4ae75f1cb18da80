//! What describes a device on Linux: `rdesc`, `usbhid-dump` and `hid-recorder`.

use super::{Fault, Why, digits, lines, pair, words};
use alloc::vec::Vec;

/// A line of a recording.
#[derive(Clone, Debug, PartialEq, Eq)]
pub enum Line {
    /// The bytes of an input report: `E:` of hid-recorder.
    Report(Vec<u8>),
    /// A block of usbhid-dump begins: whether it holds a report.
    Block(bool),
    /// Another line that hid-recorder prints.
    Other,
    /// It is an `E:` that is damaged, with the place in the line.
    Damaged(Fault),
}

/// Reads a line of a recording; `None` if it is none.
///
/// ```
/// use wuzhikar_hid::texts::{Line, line_of};
///
/// assert_eq!(line_of(b"E: 000000.008123 2 01 fe"), Some(Line::Report(vec![0x01, 0xfe])));
/// assert_eq!(line_of(b"001:002:000:STREAM 1303325321.298640"), Some(Line::Block(true)));
/// assert_eq!(line_of(b"a word"), None);
/// ```
pub fn line_of(line: &[u8]) -> Option<Line> {
    if !line.iter().take(4).any(|byte| *byte == b':') {
        return None;
    }
    if let Some((_, kind)) = header(line) {
        return Some(Line::Block(kind == Kind::Stream));
    }
    if !is_recorded(line) {
        return None;
    }
    let Some(event) = line.strip_prefix(b"E:") else {
        return Some(Line::Other);
    };
    let mut all = words(2, event);
    let time = all.next();
    let is_time = time.is_some_and(|(_, word)| word.iter().all(|byte| byte.is_ascii_digit() || *byte == b'.'));
    if !is_time {
        return Some(Line::Damaged(Fault { at: time.map_or(line.len(), |(at, _)| at), why: Why::NoLine }));
    }
    Some(counted(all, line.len()).map_or_else(Line::Damaged, Line::Report))
}

/// Whether hid-recorder prints such a line: a letter, a colon and a blank.
pub fn is_recorded(line: &[u8]) -> bool {
    matches!(line, [b'R' | b'N' | b'P' | b'I' | b'D' | b'E', b':'] | [b'R' | b'N' | b'P' | b'I' | b'D' | b'E', b':', b' ', ..])
}

/// The bytes of words: how many there are, in decimal, and then each.
fn counted<'w>(mut all: impl Iterator<Item = (usize, &'w [u8])>, end: usize) -> Result<Vec<u8>, Fault> {
    let (at, word) = all.next().ok_or(Fault { at: end, why: Why::NoPair })?;
    let bytes = all.map(|(at, word)| pair(at, word)).collect::<Result<Vec<u8>, Fault>>()?;
    let is_count = word.iter().all(u8::is_ascii_digit);
    let count = core::str::from_utf8(word).ok().filter(|_| is_count).and_then(|word| word.parse::<usize>().ok());
    if count == Some(bytes.len()) { Ok(bytes) } else { Err(Fault { at, why: Why::WrongCount(bytes.len()) }) }
}

/// The descriptor of a recording: its one line `R:`.
pub fn read_hid_recorder(text: &[u8]) -> Result<Vec<u8>, Fault> {
    let mut found = None;
    for (at, line) in lines(text) {
        let is_comment = line.starts_with(b"#") || line.trim_ascii().is_empty();
        match line.strip_prefix(b"R:") {
            _ if !is_comment && !is_recorded(line) => return Err(Fault { at, why: Why::NoLine }),
            Some(_) if found.is_some() => return Err(Fault { at, why: Why::Second }),
            Some(said) => found = Some(counted(words(at + 2, said), at + line.len())?),
            None => {}
        }
    }
    found.ok_or(Fault { at: text.len(), why: Why::NoDescriptor })
}

/// What a block of usbhid-dump holds.
#[derive(Clone, Copy, PartialEq, Eq)]
enum Kind {
    Descriptor,
    Stream,
}

/// The device and the kind that the first line of a block names, as in `001:002:000:DESCRIPTOR 1303325321.298640`.
fn header(line: &[u8]) -> Option<(&[u8], Kind)> {
    let mut parts = line.splitn(4, |byte| *byte == b':');
    let is_number = |part: &[u8]| matches!(part.len(), 1..=3) && part.iter().all(u8::is_ascii_digit);
    if !parts.by_ref().take(3).all(is_number) {
        return None;
    }
    let rest = parts.next()?;
    let kind = match words(0, rest).next()?.1 {
        b"DESCRIPTOR" => Kind::Descriptor,
        b"STREAM" => Kind::Stream,
        _ => return None,
    };
    Some((&line[..line.len() - rest.len()], kind))
}

/// Whether a line begins a block of usbhid-dump.
pub fn is_header(line: &[u8]) -> bool {
    header(line).is_some()
}

/// The one descriptor of what usbhid-dump prints of one interface of a device.
pub fn read_usbhid_dump(text: &[u8]) -> Result<Vec<u8>, Fault> {
    let (mut found, mut device, mut inside): (Option<Vec<u8>>, _, _) = (None, None, None);
    for (at, line) in lines(text) {
        if let Some((own, kind)) = header(line) {
            let is_second = kind == Kind::Descriptor && found.is_some();
            if is_second || *device.get_or_insert(own) != own {
                return Err(Fault { at, why: Why::Second });
            }
            if kind == Kind::Descriptor {
                found = Some(Vec::new());
            }
            inside = Some(kind);
        } else if line.trim_ascii().is_empty() {
            inside = None;
        } else {
            let kind = inside.ok_or(Fault { at, why: Why::NoLine })?;
            let said = words(at, line).map(|(at, word)| pair(at, word)).collect::<Result<Vec<u8>, Fault>>()?;
            if kind == Kind::Descriptor {
                found.get_or_insert_default().extend(said);
            }
        }
    }
    found.ok_or(Fault { at: text.len(), why: Why::NoDescriptor })
}

/// Whether a line of `rdesc` names a report, as `  INPUT(1)[INPUT]`.
fn is_report(line: &[u8]) -> bool {
    let line = line.trim_ascii_start();
    let names: [&[u8]; 3] = [b"INPUT", b"OUTPUT", b"FEATURE"];
    names.iter().any(|name| matches!(line.strip_prefix(*name), Some([b'(' | b'[', ..])))
}

/// Whether a text has lines that name reports as `rdesc` does.
pub fn has_reports(text: &[u8]) -> bool {
    lines(text).any(|(_, line)| is_report(line))
}

/// The digits before the first report that `rdesc` of one device names. What follows is the kernel's view, and not read.
pub fn read_rdesc(text: &[u8]) -> Result<Vec<u8>, Fault> {
    let end = lines(text).find(|(_, line)| is_report(line)).map_or(text.len(), |(at, _)| at);
    let is_second = |line: &[u8]| !line.trim_ascii().is_empty() && words(0, line).all(|(at, word)| pair(at, word).is_ok());
    let second = lines(&text[end..]).find(|(_, line)| is_second(line));
    match second {
        Some((at, _)) => Err(Fault { at: end + at, why: Why::Second }),
        None => digits(&text[..end]),
    }
}
