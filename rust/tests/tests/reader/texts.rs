//! Texts as words, and texts that are parsed in pieces.

use wuzhikar_reader::{Descriptor, ParseError, Parser};
use wuzhikar_tests::repeated;

/// The report descriptor that the keyboard serves, 99 bytes.
const SERVED: &str = "\
    05010906A1018501050719E029E715002501750195088102190429A495A18102950781030508190129059505910295039103C0\
    050C0901A1018502150026FF0319002AFF03751095048100C0\
    0600FF0901A10185030902150026FF0075089505B102C0";

/// The bytes of words; `SERVED` is the served descriptor.
pub fn text_of(words: &str) -> Vec<u8> {
    repeated(&words.replace("SERVED", SERVED))
}

/// The ranges of usages of a field, `FIRST-LAST` or one usage, joined by commas; `-` for none.
pub fn ranges(of: &Descriptor, field: usize) -> String {
    let range = |&(first, last): &(u32, u32)| match first == last {
        true => format!("{first:08x}"),
        false => format!("{first:08x}-{last:08x}"),
    };
    let all: Vec<String> = of.ranges(field).iter().map(range).collect();
    if all.is_empty() { "-".into() } else { all.join(",") }
}

/// Parses a text in pieces.
pub fn parse_pieces<'a>(pieces: impl IntoIterator<Item = &'a [u8]>) -> Result<Descriptor, ParseError> {
    let mut parser = Parser::default();
    for piece in pieces {
        parser.feed(piece)?;
    }
    parser.finish()
}
