//! Reads a report so many times by a kept reader, writes one, or parses a descriptor, for a count of instructions: `count read
//! HEX HEX TIMES`, `count write HEX TIMES`, `count new HEX TIMES`, `count details HEX TIMES`, `count parse HEX TIMES`.
#![forbid(unsafe_code)]

use std::hint::black_box;
use wuzhikar_hid::{Asked, Kind, Reader, Setting, Target, Within, details};

fn bytes_of(hex: &str) -> Vec<u8> {
    (0..hex.len() / 2).map(|at| u8::from_str_radix(&hex[2 * at..2 * at + 2], 16).expect("hex")).collect()
}

/// The usages of the places of each field, or as many as there are places of its list, each set to 1: the places of a Variable field
/// by what they have, those of an Array by what is put into it.
fn settings(reader: &Reader) -> Vec<Setting> {
    let descriptor = reader.descriptor();
    let places = |number: usize| (0..descriptor.fields()[number].count).map(move |place| (number, place));
    (0..descriptor.fields().len())
        .flat_map(places)
        .map(|(number, place)| descriptor.usage(number, place.into()).expect("a usage"))
        .map(|usage| Setting { target: Target::Usage { usage, place: 0 }, asked: Asked::Value(1) })
        .collect()
}

fn main() {
    let words: Vec<String> = std::env::args().collect();
    let text = bytes_of(&words[2]);
    let times: usize = words.last().and_then(|word| word.parse().ok()).expect("a number of times");
    if words[1] == "details" {
        for _ in 0..times {
            black_box(details(black_box(&text)).expect("memory"));
        }
        return;
    }
    if words[1] == "parse" {
        for _ in 0..times {
            black_box(wuzhikar_reader::parse(black_box(&text)).expect("a descriptor"));
        }
        return;
    }
    if words[1] == "new" {
        for _ in 0..times {
            black_box(Reader::new(black_box(&text)).expect("a descriptor"));
        }
        return;
    }
    let reader = Reader::new(&text).expect("a descriptor");
    if words[1] == "write" {
        let settings = settings(&reader);
        for _ in 0..times {
            black_box(reader.write(Kind::Input, 0, black_box(&settings), None).expect("a report"));
        }
        return;
    }
    let report = bytes_of(&words[3]);
    for _ in 0..times {
        let mut sum = 0;
        for value in reader.read(Kind::Input, black_box(&report)).expect("a report") {
            sum += value.raw + i64::from(value.usage.unwrap_or(0)) + i64::from(value.within != Within::Range);
        }
        black_box(sum);
    }
}
