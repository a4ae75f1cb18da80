//! The bytes of a report descriptor, out of the texts in which tools and sources say them.
//!
//! A [`Form`] is one way to say bytes; [`Form::read`] takes a text in it, and [`taken`] finds the form out by itself. Each takes
//! time linear in the text, and no more memory than [`MOST`] bytes and some times the text. By hand, tested and not proved.
//!
//! ```
//! use wuzhikar_hid::texts::{Form, taken};
//!
//! let (form, bytes) = taken(b"R: 4 05 01 09 02\nE: 000000.000000 1 00\n").unwrap();
//! assert_eq!((form, bytes.as_slice()), (Form::HidRecorder, &[5, 1, 9, 2][..]));
//! assert_eq!(Form::Hexdump.read(b"00000000  05 01  |..|\n00000002\n"), Ok(vec![5, 1]));
//! ```

mod arrays;
mod dumps;
mod recordings;
mod sentences;

use alloc::vec::Vec;
use arrays::Language;
use dumps::Dump;
pub use recordings::{Line, line_of};
pub use sentences::shown;

/// The most bytes that a text may say: 2^20.
pub const MOST: usize = 1 << 20;

/// A form of texts.
#[derive(Clone, Copy, Debug, PartialEq, Eq)]
pub enum Form {
    /// Pairs of hex digits; blanks may stand anywhere.
    Hex,
    /// An array of C, as also `xxd -i` prints it.
    C,
    /// An array of Rust.
    Rust,
    /// Hex digits, or numbers as `0x05` or `05h`, with comments between them, and with commas or without.
    Loose,
    /// The lines of `xxd`.
    Xxd,
    /// The lines of `hexdump -C`.
    Hexdump,
    /// `rdesc` of Linux, in `/sys/kernel/debug/hid/DEVICE`.
    Rdesc,
    /// The output of `usbhid-dump`.
    UsbhidDump,
    /// A recording of `hid-recorder`.
    HidRecorder,
    /// The bytes themselves.
    Bytes,
}

/// Why a text does not say bytes, and where: at an offset in bytes.
///
/// ```
/// use wuzhikar_hid::texts::{Form, Why};
///
/// let text = b"05 01\n09 0x";
/// let fault = Form::Hex.read(text).unwrap_err();
/// assert_eq!((fault.at, fault.why), (10, Why::NoDigit));
/// assert_eq!(fault.sentence(text), "line 2, column 5: x is no hex digit");
/// ```
#[derive(Clone, Copy, Debug, PartialEq, Eq)]
pub struct Fault {
    /// The place in the text.
    pub at: usize,
    /// What is wrong there.
    pub why: Why,
}

impl Fault {
    /// Moves the place of the fault past so many bytes in front of the text.
    fn moved_by(self, mark: usize) -> Fault {
        Fault { at: self.at + mark, ..self }
    }
}

/// What is wrong in a text.
#[derive(Clone, Copy, Debug, PartialEq, Eq)]
pub enum Why {
    /// No hex digit, where one is wanted.
    NoDigit,
    /// The last of so many hex digits: a byte takes two.
    OddDigits(usize),
    /// No number of a byte, where one is wanted.
    NoByte,
    /// No two hex digits of a byte, where they are wanted.
    NoPair,
    /// Behind a byte something else than a comma.
    NoComma,
    /// A comment that does not end.
    OpenComment,
    /// A list that is not closed.
    OpenList,
    /// No list begins in the text.
    NoList,
    /// No offset, where a line wants one.
    NoOffset,
    /// An offset other than this one.
    WrongOffset(u64),
    /// The characters beside the bytes are not theirs.
    WrongCharacters,
    /// A `*` with no line before it.
    NothingRepeated,
    /// More bytes than [`MOST`].
    TooMany,
    /// An offset of `hexdump` or `od`, whose words may stand in the order of the bytes of the machine.
    Words,
    /// No line of this form.
    NoLine,
    /// The bytes are not as many as stand here: their number.
    WrongCount(usize),
    /// A second descriptor, or a second device.
    Second,
    /// No descriptor in the text.
    NoDescriptor,
    /// The text says other bytes in the second of these forms.
    Ambiguous(Form, Form),
    /// The text is in UTF-16.
    Utf16,
}

/// What editors put in front of a text to say how it is written.
#[derive(Clone, Copy, Debug, PartialEq, Eq)]
pub enum Mark {
    /// The mark of UTF-8, three bytes.
    Utf8,
    /// The mark of UTF-16, or each second byte of a text that is else ASCII is 0.
    Utf16,
}

impl Mark {
    /// Returns the mark that a text begins with; `None` if it has none.
    ///
    /// ```
    /// use wuzhikar_hid::texts::Mark;
    ///
    /// assert_eq!(Mark::of("\u{feff}05 01".as_bytes()), Some(Mark::Utf8));
    /// assert_eq!(Mark::of(b"0\x005\x00\n\x00"), Some(Mark::Utf16));
    /// ```
    pub fn of(text: &[u8]) -> Option<Mark> {
        let is_text = |byte: &u8| matches!(byte, b' '..=b'~') || is_blank(*byte);
        let is_wide = |low: usize| text.chunks(2).all(|pair| pair.len() == 2 && is_text(&pair[low]) && pair[1 - low] == 0);
        match text {
            [0xEF, 0xBB, 0xBF, ..] => Some(Mark::Utf8),
            [0xFF, 0xFE, ..] | [0xFE, 0xFF, ..] => Some(Mark::Utf16),
            [_, _, _, _, ..] if is_wide(0) || is_wide(1) => Some(Mark::Utf16),
            _ => None,
        }
    }
}

impl Form {
    /// Each form.
    pub const ALL: [Form; 10] = [
        Form::Hex,
        Form::C,
        Form::Rust,
        Form::Loose,
        Form::Xxd,
        Form::Hexdump,
        Form::Rdesc,
        Form::UsbhidDump,
        Form::HidRecorder,
        Form::Bytes,
    ];

    /// Returns its name.
    pub const fn name(self) -> &'static str {
        match self {
            Form::Hex => "hex",
            Form::C => "c",
            Form::Rust => "rust",
            Form::Loose => "loose",
            Form::Xxd => "xxd",
            Form::Hexdump => "hexdump",
            Form::Rdesc => "rdesc",
            Form::UsbhidDump => "usbhid-dump",
            Form::HidRecorder => "hid-recorder",
            Form::Bytes => "bytes",
        }
    }

    /// Returns the form of a name; `None` if it is of none.
    pub fn named(name: &str) -> Option<Form> {
        Form::ALL.into_iter().find(|form| form.name() == name)
    }

    /// Returns whether its texts hold reports beside the descriptor.
    pub fn is_recording(self) -> bool {
        matches!(self, Form::UsbhidDump | Form::HidRecorder)
    }

    /// Reads the bytes of the descriptor that a text says in this form. A mark of UTF-8 before it is passed over, but in hex and
    /// in bytes.
    ///
    /// # Errors
    ///
    /// The first fault of the text.
    pub fn read(self, text: &[u8]) -> Result<Vec<u8>, Fault> {
        let mark = if matches!(self, Form::Hex | Form::Bytes) { 0 } else { mark_len(text)? };
        self.said(&text[mark..]).map_err(|fault| fault.moved_by(mark))
    }

    /// The bytes of a text without a mark.
    fn said(self, text: &[u8]) -> Result<Vec<u8>, Fault> {
        match self {
            Form::Hex => digits(text),
            Form::C => arrays::read(text, Language::C),
            Form::Rust => arrays::read(text, Language::Rust),
            Form::Loose => arrays::read_loose(text),
            Form::Xxd => dumps::read(text, Dump::Xxd),
            Form::Hexdump => dumps::read(text, Dump::Hexdump),
            Form::Rdesc => recordings::read_rdesc(text),
            Form::UsbhidDump => recordings::read_usbhid_dump(text),
            Form::HidRecorder => recordings::read_hid_recorder(text),
            Form::Bytes => Ok(text.to_vec()),
        }
    }
}

/// Finds the form of a text, and reads the bytes that it says.
///
/// A mark of UTF-8 is passed over, and a text in UTF-16 refused. A text with control characters, or which is no UTF-8, is the bytes
/// themselves. The mark of a tool decides before all else. Then a text is hex digits if it is nothing else than pairs of them, and
/// else in the first form of arrays that takes it, or last loose numbers.
///
/// # Errors
///
/// The form that the text looks most like, and its first fault there; `Ambiguous` for other bytes in another form of numbers.
pub fn taken(text: &[u8]) -> Result<(Form, Vec<u8>), (Form, Fault)> {
    let mark = mark_len(text).map_err(|fault| (Form::Bytes, fault))?;
    let has_controls = || text.iter().any(|byte| byte.is_ascii_control() && !is_blank(*byte));
    if mark == 0 && (has_controls() || core::str::from_utf8(text).is_err()) {
        return Ok((Form::Bytes, text.to_vec()));
    }
    let text = &text[mark..];
    let told = match marked(text) {
        Some(form) => form.read(text).map(|bytes| (form, bytes)).map_err(|fault| (form, fault)),
        None => numbers(text),
    };
    told.map_err(|(form, fault)| (form, fault.moved_by(mark)))
}

/// The length of the mark that stands before a text.
fn mark_len(text: &[u8]) -> Result<usize, Fault> {
    match Mark::of(text) {
        Some(Mark::Utf16) => Err(Fault { at: 0, why: Why::Utf16 }),
        Some(Mark::Utf8) => Ok(3),
        None => Ok(0),
    }
}

/// Hex digits, an array or loose numbers.
fn numbers(text: &[u8]) -> Result<(Form, Vec<u8>), (Form, Fault)> {
    if dumps::is_of_words(text) {
        return Err((Form::Hexdump, Fault { at: 0, why: Why::Words }));
    }
    let ambiguous = |form, other| Err((form, Fault { at: 0, why: Why::Ambiguous(form, other) }));
    let hex = match digits(text) {
        Ok(_) if dumps::is_numbered(text) => return ambiguous(Form::Hex, Form::Hexdump),
        Ok(bytes) => return Ok((Form::Hex, bytes)),
        Err(fault) => fault,
    };
    // (A number alone is no array of C.)
    let is_listed = text.iter().any(|byte| b",{xX".contains(byte));
    let forms = [(Form::C, is_listed), (Form::Rust, true), (Form::Loose, true)];
    let mut read =
        forms.into_iter().filter(|(_, is_tried)| *is_tried).filter_map(|(form, _)| Some((form, form.read(text).ok()?)));
    let Some((form, bytes)) = read.next() else {
        return Err(arrays::likely(text).and_then(|form| Some((form, form.read(text).err()?))).unwrap_or((Form::Hex, hex)));
    };
    match read.find(|(_, others)| *others != bytes) {
        Some((other, _)) => ambiguous(form, other),
        None => Ok((form, bytes)),
    }
}

/// The form of the tool whose mark the first line bears that is neither blank nor a comment of `#`.
fn marked(text: &[u8]) -> Option<Form> {
    let is_said = |line: &[u8]| !line.trim_ascii().is_empty() && !line.starts_with(b"#");
    let (_, first) = lines(text).find(|(_, line)| is_said(line))?;
    if recordings::is_recorded(first) {
        Some(Form::HidRecorder)
    } else if recordings::is_header(first) {
        Some(Form::UsbhidDump)
    } else if recordings::has_reports(text) && digits(first).is_ok() {
        Some(Form::Rdesc)
    } else {
        dumps::marked(first)
    }
}

/// Reads pairs of hex digits; spaces, tabs, CR and LF are dropped.
///
/// # Errors
///
/// `NoDigit` at the first other character, `OddDigits` if a digit is left over.
pub fn digits(text: &[u8]) -> Result<Vec<u8>, Fault> {
    let (mut bytes, mut high, mut count) = (Vec::with_capacity(text.len() / 2), None, 0);
    for (at, byte) in text.iter().enumerate().filter(|(_, byte)| !is_blank(**byte)) {
        let digit = digit(*byte).ok_or(Fault { at, why: Why::NoDigit })?;
        count += 1;
        high = match high {
            None => Some((at, digit)),
            Some((_, high)) => {
                bytes.push(high << 4 | digit);
                None
            }
        };
    }
    match high {
        None => Ok(bytes),
        Some((at, _)) => Err(Fault { at, why: Why::OddDigits(count) }),
    }
}

/// The number of a hex digit.
fn digit(byte: u8) -> Option<u8> {
    char::from(byte).to_digit(16).map(|digit| digit as u8)
}

fn is_blank(byte: u8) -> bool {
    matches!(byte, b' ' | b'\t' | b'\r' | b'\n')
}

/// The lines of a text without their ends, each with its place.
fn lines(text: &[u8]) -> impl Iterator<Item = (usize, &[u8])> {
    let mut next = 0;
    text.split_inclusive(|byte| *byte == b'\n').map(move |line| {
        let at = next;
        next += line.len();
        let line = line.strip_suffix(b"\n").unwrap_or(line);
        (at, line.strip_suffix(b"\r").unwrap_or(line))
    })
}

/// The words of a line, each with its place in the text in which the line stands at this place.
fn words(at: usize, line: &[u8]) -> impl Iterator<Item = (usize, &[u8])> {
    let mut next = at;
    let parts = line.split(|byte| is_blank(*byte)).map(move |word| {
        let at = next;
        next += word.len() + 1;
        (at, word)
    });
    parts.filter(|(_, word)| !word.is_empty())
}

/// The byte of a word of two hex digits.
fn pair(at: usize, word: &[u8]) -> Result<u8, Fault> {
    match word {
        [high, low] => digit(*high).zip(digit(*low)).map(|(high, low)| high << 4 | low),
        _ => None,
    }
    .ok_or(Fault { at, why: Why::NoPair })
}
