// SPDX-License-Identifier: MIT OR Apache-2.0
//! Makes the reports that turn a keyboard's Num Lock LED on and off and leave its other LEDs as they are, of two keyboards.

use hid_driver::reader_of;
use std::error::Error;
use wuzhikar_hid::usages::led::{CAPS_LOCK, NUM_LOCK};
use wuzhikar_hid::{Asked, Kind, Reader, Setting, Target};

/// One without Report IDs, and one of whose three input reports and one output report each has an ID.
const KEYBOARDS: [&str; 2] = [include_str!("../../keyboard.hex"), include_str!("../../../media_keys.hex")];
/// The interface whose descriptor it is.
const INTERFACE: u8 = 0;

fn led(usage: u32, on: i64) -> [Setting; 1] {
    [Setting { target: Target::Usage { usage, place: 0 }, asked: Asked::Value(on) }]
}

/// The ID of the output report in which an LED can be set, 0 where none is used.
fn report_of(reader: &Reader, usage: u32) -> Option<u8> {
    let outputs = reader.details().reports().filter(|report| report.kind == Kind::Output);
    let mut ids = outputs.filter_map(|report| u8::try_from(report.id).ok());
    ids.find(|id| reader.write(Kind::Output, *id, &led(usage, 1), None).is_ok())
}

fn main() -> Result<(), Box<dyn Error>> {
    for text in KEYBOARDS {
        let reader = reader_of(text)?;
        let id = report_of(&reader, NUM_LOCK).ok_or("no output report has Num Lock")?;
        let write = |led: [Setting; 1], onto: Option<&[u8]>| reader.write(Kind::Output, id, &led, onto);
        let caps = write(led(CAPS_LOCK, 1), None)?;
        println!("Caps Lock, new   {caps:02x?}");
        // Onto the last report that was sent, its ID byte with it: all other LEDs stay.
        let both = write(led(NUM_LOCK, 1), Some(&caps))?;
        println!("Num Lock onto it {both:02x?}");
        println!("off again        {:02x?}", write(led(NUM_LOCK, 0), Some(&both))?);
        // A new report turns all other LEDs off.
        println!("Num Lock, new    {:02x?}", write(led(NUM_LOCK, 1), None)?);
        // SET_REPORT to endpoint 0 (HID 1.11, 7.2.2), and the report is its data.
        let len = u16::try_from(both.len())?.to_le_bytes();
        println!("its SET_REPORT   {:02x?}", [0x21, 0x09, id, 0x02, INTERFACE, 0, len[0], len[1]]);
        println!("as 2             {}", write(led(NUM_LOCK, 2), None).unwrap_err());
        println!("as an input      {}", reader.write(Kind::Input, id, &led(NUM_LOCK, 1), None).unwrap_err());
        println!("of ID 9          {}", reader.write(Kind::Output, 9, &led(NUM_LOCK, 1), None).unwrap_err());
        println!("--");
    }
    Ok(())
}
