// SPDX-License-Identifier: MIT OR Apache-2.0
//! Follows two touch screens: each contact by its identifier, and where it is in the unit of the screen.

use hid_driver::{read_or_drop, reader_of};
use std::collections::BTreeMap;
use std::error::Error;
use wuzhikar_hid::usages::{digitizers, generic_desktop};
use wuzhikar_hid::{Reader, Value};

/// Two fingers.
const TOUCH_SCREEN: &str = include_str!("../../touch_screen.hex");
const REPORTS: [&[u8]; 6] = [
    &[1, 1, 5, 0x00, 0x08, 0xff, 0x0f, 0, 0, 0, 0, 0, 0, 0x10, 0x00, 1],
    &[1, 1, 5, 0x10, 0x08, 0xff, 0x0f, 1, 6, 0x00, 0x04, 0x00, 0x02, 0x20, 0x00, 2],
    &[9, 0, 5, 0x10, 0x08, 0xff, 0x0f, 1, 6, 0x00, 0x04, 0x10, 0x02, 0x30, 0x00, 2],
    &[1, 0, 5, 0x10, 0x08, 0xff, 0x0f, 1, 6, 0x00, 0x04, 0x10, 0x02, 0x30, 0x00, 2],
    &[1, 0, 6, 0x00, 0x04, 0x10, 0x02, 0, 0, 0, 0, 0, 0, 0x40, 0x00, 1],
    // Contact 0, and a slot of zeros that is no contact.
    &[1, 1, 0, 0x00, 0x08, 0x00, 0x08, 0, 0, 0, 0, 0, 0, 0x50, 0x00, 1],
];
/// Ten fingers, whose X and Y stand in a collection of their own, and no more than two of them touch.
const TEN: &str = include_str!("../../others/touch_screen.hex");
const TEN_REPORTS: [&[(u8, u8, u8)]; 3] = [&[(1, 0, 10)], &[(1, 0, 20), (1, 9, 30)], &[(0, 0, 20), (1, 9, 31)]];

/// A report of ten slots and the count of those that are used: Tip Switch, Contact Identifier and X of each.
fn report_of_ten(contacts: &[(u8, u8, u8)]) -> Vec<u8> {
    let mut report = vec![0; 1 + 10 * 8 + 1];
    report[0] = 1;
    for (place, (tip, number, x)) in contacts.iter().enumerate() {
        report[1 + 8 * place..][..4].copy_from_slice(&[*tip, *number, *x, 0]);
    }
    report[81] = contacts.len() as u8;
    report
}

/// A contact as a report says it: all values of one finger's collection.
#[derive(Default)]
struct Contact {
    down: bool,
    number: i64,
    x: String,
    y: String,
}

/// The Finger that a value stands in: the innermost collection may be one of X and Y alone.
fn finger_of(reader: &Reader, value: &Value) -> Option<usize> {
    let details = reader.details();
    let is_finger = |place: &usize| details.collections[*place].usage == Some(digitizers::FINGER);
    details.around(reader.placed(value.field)?.place).find(is_finger)
}

/// The contacts of the values of a report, in order, by the fingers' collections, and the Contact Count.
fn contacts(reader: &Reader, values: impl Iterator<Item = Value>) -> Result<(Vec<Contact>, usize), Box<dyn Error>> {
    let (mut found, mut count) = (BTreeMap::<usize, Contact>::new(), None);
    for value in values {
        if value.usage == Some(digitizers::CONTACT_COUNT) {
            count = usize::try_from(value.raw).ok();
        }
        let (Some(detail), Some(finger)) = (reader.detail(value.field), finger_of(reader, &value)) else { continue };
        let contact = found.entry(finger).or_default();
        let place = || -> Result<String, Box<dyn Error>> {
            let physical = detail.physical_value(value.raw)?;
            Ok(format!("{} {}s", physical.decimal(2), detail.unit_name().unwrap_or("unit")))
        };
        match value.usage {
            Some(digitizers::TIP_SWITCH) => contact.down = value.raw != 0,
            Some(digitizers::CONTACT_IDENTIFIER) => contact.number = value.raw,
            Some(generic_desktop::X) => contact.x = place()?,
            Some(generic_desktop::Y) => contact.y = place()?,
            _ => {}
        }
    }
    let count = count.unwrap_or(found.len());
    Ok((found.into_values().collect(), count))
}

fn follow(reader: &Reader, reports: &[Vec<u8>]) -> Result<(), Box<dyn Error>> {
    let mut down = BTreeMap::new();
    for report in reports {
        let Some(values) = read_or_drop(reader, report) else { continue };
        let (contacts, count) = contacts(reader, values)?;
        // Only so many slots are contacts: an unused one of zeros would be contact 0, not touching.
        for contact in contacts.into_iter().take(count) {
            if contact.down {
                down.insert(contact.number, format!("{}, {}", contact.x, contact.y));
            } else if down.remove(&contact.number).is_some() {
                println!("contact {} is lifted", contact.number);
            }
        }
        for (number, place) in &down {
            println!("contact {number} at {place}");
        }
        println!("--");
    }
    Ok(())
}

fn main() -> Result<(), Box<dyn Error>> {
    follow(&reader_of(TOUCH_SCREEN)?, &REPORTS.map(<[u8]>::to_vec))?;
    println!("ten fingers");
    follow(&reader_of(TEN)?, &TEN_REPORTS.map(report_of_ten))
}
