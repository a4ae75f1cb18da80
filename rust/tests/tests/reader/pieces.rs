//! Texts that come in pieces.

use crate::texts::{parse_pieces, text_of};
use proptest::prelude::*;
use wuzhikar_reader::{Items, ParseError, ParseFault, Parser, parse};

/// After the item that the text ends within there is none.
#[test]
fn items_end_at_a_fault() {
    let mut items = Items::new(&[0x87, 1, 2, 3]);
    assert!(items.next().is_some_and(|item| item.is_err()));
    assert_eq!(items.next(), None);
}

#[test]
fn the_empty_piece_ends_nothing() {
    let text = text_of("SERVED");
    let pieces = text.chunks(1).flat_map(|byte| [&[], byte, &[]]);
    assert_eq!(parse_pieces(pieces), parse(&text));
}

/// A fault is told again by each later call.
#[test]
fn a_fault_stays() {
    let mut parser = Parser::default();
    let fault = Err(ParseError { fault: ParseFault::Delimiter, offset: 0 });
    assert_eq!(parser.feed(&[0xA9]), Ok(()));
    assert_eq!(parser.feed(&[0x01]), fault);
    assert_eq!(parser.feed(&[]), fault);
    assert_eq!(parser.finish().map(drop), fault);
}

/// Items that often go well with others.
fn item() -> impl Strategy<Value = Vec<u8>> {
    let one_of = |prefix: u8, values: &'static [u8]| prop::sample::select(values).prop_map(move |value| vec![prefix, value]);
    let data = || prop::sample::select(&[0x81u8, 0x81, 0x91, 0xB1][..]);
    prop_oneof![
        4 => (data(), 0u8..4).prop_map(|(kind, flags)| vec![kind, flags]),
        1 => one_of(0x75, &[0, 1, 3, 8, 8, 32, 33]),
        1 => one_of(0x95, &[0, 1, 2, 6]),
        1 => one_of(0x15, &[0, 0, 1, 0x81, 0xFF]),
        1 => one_of(0x25, &[1, 0x7F, 0xA4, 0xFF]),
        1 => one_of(0x05, &[1, 7, 8, 12]),
        1 => one_of(0x85, &[1, 2, 3, 0xFF]),
        2 => prop::sample::select(&[0xA4u8, 0xA4, 0xB4, 0xC0][..]).prop_map(|prefix| vec![prefix]),
        1 => any::<u8>().prop_map(|usage| vec![0x09, usage]),
        1 => (1u8..5, 4u8..200).prop_map(|(min, max)| vec![0x19, min, 0x29, max]),
        1 => Just(vec![0xA1, 0]),
        1 => any::<u8>().prop_map(|byte| vec![0xFE, 1, 9, byte]),
        1 => prop::collection::vec(any::<u8>(), 1..3),
    ]
}

proptest! {
    /// A text says the same in all pieces that it comes in, also where a byte of it was changed.
    #[test]
    fn pieces_say_what_the_whole_says(
        items in prop::collection::vec(item(), 0..24),
        change in proptest::option::of((any::<prop::sample::Index>(), any::<u8>())),
        lengths in prop::collection::vec(0usize..10, 1..40),
    ) {
        let mut text = [&[0x75, 4, 0x95, 2, 0x25, 9][..], &items.concat()].concat();
        if let Some((place, byte)) = change {
            let place = place.index(text.len());
            text[place] = byte;
        }
        let mut rest = &text[..];
        let mut pieces = Vec::new();
        for length in lengths {
            let (piece, more) = rest.split_at(length.min(rest.len()));
            pieces.push(piece);
            rest = more;
        }
        pieces.push(rest);
        prop_assert_eq!(parse_pieces(pieces), parse(&text));
    }

    /// No bytes make the parser panic, and no fault lies past their end.
    #[test]
    fn any_bytes_are_parsed(text in prop::collection::vec(any::<u8>(), 0..80)) {
        if let Err(error) = parse(&text) {
            prop_assert!(error.offset <= text.len());
        }
    }
}
