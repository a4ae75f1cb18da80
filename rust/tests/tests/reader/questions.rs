//! What is asked of a descriptor.

use crate::texts::{ranges, text_of};
use wuzhikar_reader::{AllocError, Descriptor, ExtractError, Kind, ParseFault, Parser, parse};
use wuzhikar_tests::{expect, number, word};

fn parsed(words: &str) -> Descriptor {
    parse(&text_of(words)).expect("a descriptor")
}

/// Numbers in hex with blanks between them, `-` for none.
fn usages(all: impl Iterator<Item = Option<u32>>) -> String {
    all.map(|usage| usage.map_or("-".into(), |usage| format!("{usage:x}"))).collect::<Vec<_>>().join(" ")
}

/// Asks a descriptor, `QUESTION = ANSWER` a row:
///
/// - `ids`: whether it uses Report IDs; `fields`: how many it has
/// - `input FIRST COUNT`, `output ..`, `feature ..`: the lengths of the reports of so many IDs
/// - `usages FIELD FIRST COUNT`: the usages of so many places
/// - `ranges FIELD`: the ranges of its usages; `counts FIELD`: how many counts there are of them
fn asks(of: &Descriptor, rows: &str) {
    let lengths = |kind, rest: &str| {
        let (first, count): (u8, u8) = rest.split_once(' ').map(|(first, count)| (number(first), number(count))).unwrap();
        let length = |id| of.report_len(kind, id).map_or("-".into(), |length| length.to_string());
        (0..count).map(|id| length(first.wrapping_add(id))).collect::<Vec<_>>().join(" ")
    };
    expect(rows, |ask| match word(ask) {
        ("ids", _) => if of.uses_ids() { "yes" } else { "no" }.into(),
        ("fields", _) => of.fields().len().to_string(),
        ("input", rest) => lengths(Kind::Input, rest),
        ("output", rest) => lengths(Kind::Output, rest),
        ("feature", rest) => lengths(Kind::Feature, rest),
        ("usages", rest) => {
            let numbers: Vec<usize> = rest.split(' ').map(number).collect();
            usages((0..numbers[2]).map(|place| of.usage(numbers[0], numbers[1] + place)))
        }
        ("ranges", rest) => ranges(of, number(rest)),
        ("counts", rest) => of.counts(number(rest)).len().to_string(),
        _ => panic!("no question: {ask}"),
    });
}

/// The served descriptor, and a copy of it.
#[test]
fn the_served_descriptor() {
    let served = parsed("SERVED");
    for descriptor in [&served, &served.clone()] {
        asks(
            descriptor,
            "ids = yes
            fields = 5
            input 0 4 = - 23 9 -
            output 0 4 = - 2 - -
            feature 0 4 = - - - 6
            feature 255 1 = -
            usages 0 0 9 = 700e0 700e1 700e2 700e3 700e4 700e5 700e6 700e7 -
            usages 1 160 2 = 700a4 -
            usages 3 402 1 = c0192
            usages 3 1024 1 = -
            usages 4 0 6 = ff000002 ff000002 ff000002 ff000002 ff000002 -
            usages 5 0 1 = -
            ranges 3 = 000c0000-000c03ff
            ranges 4 = ff000002
            ranges 5 = -",
        );
    }
}

/// Three fields of six, one and no usages.
#[test]
fn arrays_and_the_last_usage() {
    asks(
        &parsed("05 07 09 01 19 05 29 07 75 01 95 06 81 02 09 01 19 05 29 07 15 00 25 10 81 00 75 03 95 01 91 02"),
        "ids = no
        input 0 1 = 2
        output 0 1 = 1
        feature 0 1 = -
        usages 0 0 7 = 70001 70005 70006 70007 70007 70007 -
        usages 1 0 6 = 70001 70005 70006 70007 - -
        usages 2 0 1 = -",
    );
}

/// An array and a variable field of two hundred ranges each, a single usage and three in turn.
#[test]
fn places_of_many_ranges() {
    let of = parsed("05 07 75 01 96 00 04 25 01 100*090119052907 81 00 100*090119052907 81 02");
    asks(
        &of,
        "counts 0 = 200
        counts 2 = 0
        usages 0 0 8 = 70001 70005 70006 70007 70001 70005 70006 70007
        usages 0 399 2 = 70007 -
        usages 1 399 2 = 70007 70007
        usages 1 1023 2 = 70007 -",
    );
    assert_eq!(of.usage(0, usize::MAX), None);
    for place in 0..400 {
        let wanted = Some(0x0007_0000 + [1, 5, 6, 7][place % 4]);
        assert_eq!((of.usage(0, place), of.usage(1, place)), (wanted, wanted), "{place}");
    }
    assert_eq!((&of.counts(0)[..4], of.counts(0).last()), (&[1, 4, 5, 8][..], Some(&400)));
    for field in of.report(Kind::Input, 0) {
        assert_eq!((field.nth(399), field.nth(400), field.usage(398)), (Some(0x0007_0007), None, Some(0x0007_0006)));
    }
}

/// What a log shows of a descriptor, and of the parser that is fed it.
#[test]
fn a_descriptor_and_its_parser_in_a_log() {
    let text = text_of("05 07 09 01 19 05 29 07 15 00 25 01 75 01 95 06 81 02");
    let shown = "Descriptor { fields: [Field { kind: Input, id: 0, bit: 0, size: 1, count: 6, min: 0, max: 1, array: false }], \
                 ranges: [(458753, 458753), (458757, 458759)], uses_ids: false, .. }";
    assert_eq!(format!("{:?}", parse(&text).expect("a descriptor")), shown);
    let mut parser = Parser::default();
    assert_eq!(parser.feed(&text), Ok(()));
    assert_eq!(format!("{parser:?}"), "Parser { offset: 18, refused: None, .. }");
}

#[test]
fn numbers_and_words_of_refusals() {
    assert_eq!((ParseFault::Memory.number(), ExtractError::Empty.number(), ExtractError::Memory.number()), (17, 1, 4));
    assert_eq!(parse(&[0xC0]).unwrap_err().to_string(), "fault 8 at 0: EndWithoutCollection");
    assert_eq!(AllocError.to_string(), "out of memory");
}
