//! The tests share these helpers: table rows, and bytes as hex.
//!
//! A row is a line `ASK = ANSWER`, or `ASK` alone where nothing is answered. Empty lines and lines that begin with `#` are skipped.

#![forbid(unsafe_code)]

/// The rows of a text: what each asks, and the answer that it wants.
pub fn rows(text: &str) -> impl Iterator<Item = (&str, &str)> {
    let lines = text.lines().map(str::trim).filter(|line| !line.is_empty() && !line.starts_with('#'));
    lines.map(|line| line.split_once(" = ").unwrap_or((line, "")))
}

/// Asks each row of a text, and compares the answer with the one that the row wants.
#[track_caller]
pub fn expect(text: &str, mut answer: impl FnMut(&str) -> String) {
    for (ask, wanted) in rows(text) {
        assert_eq!(answer(ask), wanted, "{ask}");
    }
}

/// The bytes of hex digits; blanks don't count.
#[track_caller]
pub fn bytes(digits: &str) -> Vec<u8> {
    let digits: Vec<char> = digits.chars().filter(|letter| !letter.is_whitespace()).collect();
    assert_eq!(digits.len() % 2, 0, "half a byte in {digits:?}");
    let byte = |pair: &[char]| u8::from_str_radix(&String::from_iter(pair), 16).expect("hex digits");
    digits.chunks(2).map(byte).collect()
}

/// The bytes of words: hex digits, or `3*A100`, which is three times `A100`; `-` is no byte.
#[track_caller]
pub fn repeated(words: &str) -> Vec<u8> {
    let word = |word: &str| match word.split_once('*') {
        Some((count, digits)) => bytes(digits).repeat(count.parse().expect("a count")),
        None if word == "-" => Vec::new(),
        None => bytes(word),
    };
    words.split_whitespace().flat_map(word).collect()
}

/// Bytes as lower hex digits.
pub fn hex(bytes: &[u8]) -> String {
    bytes.iter().map(|byte| format!("{byte:02x}")).collect()
}

/// The number that a word says.
#[track_caller]
pub fn number<T: core::str::FromStr>(word: &str) -> T {
    word.trim().parse().unwrap_or_else(|_| panic!("{word} is no number"))
}

/// The number of hex digits.
#[track_caller]
pub fn hex_number(word: &str) -> u32 {
    u32::from_str_radix(word, 16).unwrap_or_else(|_| panic!("{word} is no number"))
}

/// A line's first word and the rest.
pub fn word(line: &str) -> (&str, &str) {
    line.split_once(' ').unwrap_or((line, ""))
}

pub mod images;
pub mod other;
