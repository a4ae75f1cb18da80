// Exported from crates/script/src/words.rt by bin/export-rust. Edit that file instead.
//! Cutting a line into words.

/// What stands between the words of a line.
fn is_blank(byte: u8) -> bool {
    byte == b' ' || byte == b'\t'
}

/// How many blanks a line begins with.
fn blanks(line: &[u8]) -> usize {
    line.iter().take_while(|byte| is_blank(**byte)).count()
}

/// How many bytes stand before the first blank of a line.
fn word_end(line: &[u8]) -> usize {
    line.iter().take_while(|byte| !is_blank(**byte)).count()
}

/// The words of a line from the left.
#[derive(Clone, Copy)]
pub(crate) struct Words<'a> {
    rest: &'a [u8],
}

impl<'a> Words<'a> {
    /// All words of this line.
    pub(crate) fn new(line: &'a [u8]) -> Words<'a> {
        Words { rest: line }
    }

    /// How many bytes of the line are left.
    pub(crate) fn bytes_left(&self) -> usize {
        self.rest.len()
    }

    /// The next word, where there is one.
    pub(crate) fn word(&mut self) -> &'a [u8] {
        self.next().unwrap()
    }
}

impl<'a> Iterator for Words<'a> {
    type Item = &'a [u8];

    fn next(&mut self) -> Option<&'a [u8]> {
        let line = self.rest;
        let (_, rest) = line.split_at(blanks(line));
        let (word, rest) = rest.split_at(word_end(rest));
        self.rest = rest;
        if word.is_empty() { None } else { Some(word) }
    }
}
