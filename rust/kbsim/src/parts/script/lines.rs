// Exported from crates/script/src/lines.rt by bin/export-rust. Edit that file instead.
//! Cutting a text into lines.

/// The lines of a text in order. A line ends with LF, and one CR before it is no part of it; the
/// last LF may be missing.
#[derive(Clone, Copy)]
pub(crate) struct Lines<'a> {
    rest: &'a [u8],
}

impl<'a> Lines<'a> {
    /// All lines of this text.
    pub(crate) fn new(text: &'a [u8]) -> Lines<'a> {
        Lines { rest: text }
    }
}

impl<'a> Iterator for Lines<'a> {
    type Item = &'a [u8];

    fn next(&mut self) -> Option<&'a [u8]> {
        let text = self.rest;
        let (line, rest) = text.split_at(line_end(text));
        match rest.split_first() {
            Some((_, rest)) => {
                self.rest = rest;
                Some(without_return(line))
            }
            None => {
                self.rest = rest;
                if line.is_empty() { None } else { Some(line) }
            }
        }
    }
}

/// How many bytes stand before the first LF of a text.
fn line_end(text: &[u8]) -> usize {
    text.iter().take_while(|byte| **byte != b'\n').count()
}

/// A line without the CR at its end, if it has one.
fn without_return(line: &[u8]) -> &[u8] {
    match line {
        [front @ .., b'\r'] => front,
        _ => line,
    }
}
