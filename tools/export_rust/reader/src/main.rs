//! The exported reader over report descriptors in hex, one a line of standard input.
//!
//! `reader lines` prints of each what `kbsim parse` prints, and then a line `.`; it is parsed whole and in pieces, and all
//! ways have to agree. `reader refused` parses, copies and reads each while its growths are refused, one in each run.
//! `reader parse COUNT` parses each so many times, for callgrind.

mod lines;
mod refused;

use std::hint::black_box;
use std::io::{Read, stdin};
use wuzhikar_reader::parse;

fn main() {
    let mut input = String::new();
    stdin().read_to_string(&mut input).expect("lines of hex digits");
    let texts = input.lines().map(bytes);
    let mut words = std::env::args().skip(1);
    match words.next().as_deref() {
        Some("lines") => texts.for_each(|text| lines::print(&text)),
        Some("refused") => refused::check(texts),
        Some("parse") => {
            let count: usize = words.next().and_then(|word| word.parse().ok()).expect("a count");
            texts.for_each(|text| (0..count).for_each(|_| drop(black_box(parse(black_box(&text))))));
        }
        _ => panic!("reader lines, reader refused, or reader parse COUNT"),
    }
}

fn bytes(line: &str) -> Vec<u8> {
    let digits: Vec<u8> = line.bytes().filter(|byte| !byte.is_ascii_whitespace()).collect();
    let digit = |byte: u8| (byte as char).to_digit(16).expect("a hex digit") as u8;
    digits.chunks(2).map(|pair| digit(pair[0]) << 4 | digit(pair[1])).collect()
}
