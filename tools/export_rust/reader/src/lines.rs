//! What a text says, as lines.

use wuzhikar_reader::{Descriptor, Kind, ParseError, Parser, parse};

/// The lengths of pieces in which each text is parsed, besides whole.
const PIECES: [usize; 7] = [1, 2, 3, 7, 8, 64, 1023];

/// Prints what a text says, and a line that ends it.
pub fn print(text: &[u8]) {
    let whole = parse(text);
    for piece in PIECES {
        assert_eq!(in_pieces(text, piece), whole, "in pieces of {piece}");
    }
    match whole {
        Ok(descriptor) => print_fields(&descriptor),
        Err(ParseError { fault, offset }) => println!("fault parse {} at {offset}", fault.number()),
    }
    println!(".");
}

/// A text parsed in pieces of this length.
pub fn in_pieces(text: &[u8], piece: usize) -> Result<Descriptor, ParseError> {
    let mut parser = Parser::default();
    for part in text.chunks(piece) {
        if let Err(error) = parser.feed(part) {
            // A refusal ends the parser for good.
            assert_eq!(parser.feed(part), Err(error));
            assert_eq!(parser.feed(&[]), Err(error));
            return parser.finish();
        }
    }
    parser.finish()
}

fn print_fields(descriptor: &Descriptor) {
    for (place, field) in descriptor.fields().iter().enumerate() {
        let kind = match field.kind {
            Kind::Input => "input",
            Kind::Output => "output",
            Kind::Feature => "feature",
        };
        let form = if field.array { "array" } else { "variable" };
        let ranges: Vec<String> = descriptor.ranges(place).iter().map(shown).collect();
        let usages = if ranges.is_empty() { "-".to_string() } else { ranges.join(",") };
        let (id, bit, size, count) = (field.id, field.bit, field.size, field.count);
        println!("{kind} {id} {bit} {size} {count} {} {} {form} {usages}", field.min, field.max);
    }
}

fn shown((first, last): &(u32, u32)) -> String {
    if first == last { format!("{first:08x}") } else { format!("{first:08x}-{last:08x}") }
}
