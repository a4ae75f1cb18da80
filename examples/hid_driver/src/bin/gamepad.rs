// SPDX-License-Identifier: MIT OR Apache-2.0
//! Follows two gamepads: the hat in degrees, sticks from -1 to 1, pedals from 0 to 1, and which buttons are down.

use hid_driver::{read_or_drop, reader_of};
use std::error::Error;
use wuzhikar_hid::usages::{button, generic_desktop};
use wuzhikar_hid::{Detail, Reader, UsageName, Within};

/// Sticks of -32,767 to 32,767, and a hat of 1 to 8 with Null State.
const GAMEPAD: &str = include_str!("../../gamepad.hex");
const REPORTS: [&[u8]; 4] = [
    &[0x00, 0x00, 0x00, 0, 0, 0, 0, 0, 0, 0, 0, 0, 0],
    &[0x01, 0x02, 0x03, 0xff, 0x7f, 0x01, 0x80, 0, 0, 0, 0, 255, 0],
    &[0x01, 0x02, 0x03],
    &[0x00, 0x00, 0x06, 0x00, 0x40, 0, 0, 0, 0, 0, 0, 0, 51],
];
/// Sticks of 0 to 255, and a hat of 0 to 7 without Null State.
const UNSIGNED: &str = include_str!("../../others/gamepad.hex");
const UNSIGNED_REPORTS: [&[u8]; 3] = [&[128, 128, 128, 128, 8], &[0, 255, 128, 64, 0x20], &[128, 128, 128, 128, 0x17]];

/// Where a stick is, from -1 to 1, by the middle of its extents: no descriptor says where an axis rests.
fn stick(detail: &Detail, raw: i64) -> Option<f64> {
    let half = (detail.max - detail.min + 1) / 2;
    (half > 0).then(|| (raw - detail.min - half) as f64 / half as f64)
}

/// How far down a pedal is, from 0 to 1.
fn pedal(detail: &Detail, raw: i64) -> Option<f64> {
    let span = detail.max - detail.min;
    (span > 0).then(|| (raw - detail.min) as f64 / span as f64)
}

fn tell(reader: &Reader, report: &[u8]) -> Result<(), Box<dyn Error>> {
    let (mut hat, mut buttons, mut axes) = ("none".to_string(), Vec::new(), Vec::new());
    let Some(values) = read_or_drop(reader, report) else { return Ok(()) };
    for value in values {
        let (Some(usage), Some(detail)) = (value.usage, reader.detail(value.field)) else { continue };
        match usage {
            // A hat at rest says a value outside its extents, with Null State (Null) or without (Out): that is no direction.
            generic_desktop::HAT_SWITCH if value.within != Within::Range => {}
            generic_desktop::HAT_SWITCH => {
                hat = format!("{} {}s", detail.physical_value(value.raw)?.decimal(0), detail.unit_name().unwrap_or("unit"));
            }
            usage if usage >> 16 == button::PAGE => buttons.extend((value.raw != 0).then_some(usage & 0xffff)),
            usage => {
                let is_stick = (generic_desktop::X..=generic_desktop::RZ).contains(&usage);
                let share = if is_stick { stick(detail, value.raw) } else { pedal(detail, value.raw) };
                let moved = share.filter(|share| value.within == Within::Range && *share != 0.0);
                axes.extend(moved.map(|share| format!("{} {share:.2}", UsageName(usage))));
            }
        }
    }
    println!("hat {hat}, buttons {buttons:?}, {}", if axes.is_empty() { "centred".into() } else { axes.join(", ") });
    Ok(())
}

fn main() -> Result<(), Box<dyn Error>> {
    for (text, reports) in [(GAMEPAD, &REPORTS[..]), (UNSIGNED, &UNSIGNED_REPORTS)] {
        let reader = reader_of(text)?;
        for report in reports {
            tell(&reader, report)?;
        }
        println!("--");
    }
    Ok(())
}
