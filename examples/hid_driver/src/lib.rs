// SPDX-License-Identifier: MIT OR Apache-2.0
//! What the drivers of this folder share: a descriptor in hex, and what becomes of a refused report.
#![forbid(unsafe_code)]

use std::error::Error;
use wuzhikar_hid::{Kind, Reader, Reading};

/// The reader of a descriptor in hex, as `xxd -p` writes it.
pub fn reader_of(hex: &str) -> Result<Reader, Box<dyn Error>> {
    let digits: Vec<u32> = hex.chars().filter_map(|letter| letter.to_digit(16)).collect();
    let bytes: Vec<u8> = digits.chunks(2).map(|pair| (pair[0] * 16 + pair.get(1).unwrap_or(&0)) as u8).collect();
    Ok(Reader::new(&bytes)?)
}

/// The values of an input report. One that is refused is dropped: the driver keeps its state and reads the next one.
pub fn read_or_drop<'a>(reader: &'a Reader, report: &'a [u8]) -> Option<Reading<'a>> {
    let refused = |error: &_| {
        eprintln!("{report:02x?}: {error}");
        println!("a report is dropped");
    };
    reader.read(Kind::Input, report).inspect_err(refused).ok()
}
