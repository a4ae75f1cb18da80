// SPDX-License-Identifier: MIT OR Apache-2.0
//! Follows a mouse: where it is after each report, and which buttons are down.

use hid_driver::{read_or_drop, reader_of};
use std::error::Error;
use wuzhikar_hid::usages::{button, generic_desktop};

const MOUSE: &str = include_str!("../../mouse.hex");
const REPORTS: [&[u8]; 5] = [&[0, 5, 0xfd, 0], &[1, 0, 0, 0], &[1, 120], &[1, 120, 10, 0], &[0, 0, 0, 0xff]];

fn main() -> Result<(), Box<dyn Error>> {
    let reader = reader_of(MOUSE)?;
    let (mut x, mut y, mut lines) = (0, 0, 0);
    for report in REPORTS {
        let mut buttons = Vec::new();
        let Some(values) = read_or_drop(&reader, report) else { continue };
        for value in values {
            // A value of an axis that is relative is added, any other is where the pointer is.
            let relative = reader.detail(value.field).is_some_and(|detail| detail.is_relative());
            let moved = |before: i64| if relative { before + value.raw } else { value.raw };
            match value.usage {
                Some(generic_desktop::X) => x = moved(x),
                Some(generic_desktop::Y) => y = moved(y),
                Some(generic_desktop::WHEEL) => lines = moved(lines),
                Some(usage) if usage >> 16 == button::PAGE && value.raw != 0 => buttons.push(usage & 0xffff),
                _ => {}
            }
        }
        println!("at {x} {y}, wheel {lines}, buttons {buttons:?}");
    }
    Ok(())
}
