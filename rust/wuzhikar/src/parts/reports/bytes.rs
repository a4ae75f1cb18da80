// Exported from crates/reports/src/bytes.rt by bin/export-rust. Edit that file instead.
//! The bytes of the reports.

use crate::parts::reports::InputReport;
use crate::parts::layers::Usages;

/// The usages of page 07h that a report lists (HUT page 07h).
const FIRST_USAGE: u8 = 0x04;

const LAST_USAGE: u8 = 0xA4;

/// Stands in each place of a boot report that has more usages than places (HUT page 07h).
const ERROR_ROLL_OVER: u8 = 0x01;

/// The Report ID of the consumer usages.
const CONSUMER_ID: u8 = 2;

/// The boot keyboard's input report (HID 1.11 appendix B.1 and C): the modifiers, bit i for usage
/// E0h + i, a byte 0, and six places. They hold the distinct usages 04h to A4h in rising order and
/// then zeros, or ErrorRollOver six times where those are more than six.
pub fn boot(usages: &Usages) -> [u8; 8] {
    let [first, second, third, fourth, fifth, sixth] = places(usages);
    [
        usages.modifiers(),
        0,
        first,
        second,
        third,
        fourth,
        fifth,
        sixth,
    ]
}

fn places(usages: &Usages) -> [u8; 6] {
    let mut places = [0; 6];
    let mut from = FIRST_USAGE;
    for place in 0..6 {
        match next_listed(usages, from) {
            Some(usage) => {
                places[place] = usage;
                from = usage + 1;
            },
            None => return places,
        }
    }
    match next_listed(usages, from) {
        Some(_) => [ERROR_ROLL_OVER; 6],
        None => places,
    }
}

/// The least usage from `from` to A4h in the set, if there is one.
fn next_listed(usages: &Usages, from: u8) -> Option<u8> {
    match usages.next_key(from) {
        Some(usage) if usage <= LAST_USAGE as u16 => Some(usage as u8),
        _ => None,
    }
}

/// The input report of ID 1: the ID, the modifiers, bit i for usage E0h + i, then a bit for each
/// usage 04h to A4h, counted from the least significant bit of the first byte on, and seven bits 0.
pub fn bitmap(usages: &Usages) -> [u8; 23] {
    InputReport::bitmap(usages).twenty_three()
}

/// The input report of ID 2: the ID and four places of two bytes, the low one first. They hold the
/// usages 001h to 3FFh of page 0Ch in rising order and then zeros; of more than four the four least.
pub fn consumer(usages: &Usages) -> [u8; 9] {
    let mut bytes = [CONSUMER_ID, 0, 0, 0, 0, 0, 0, 0, 0];
    let mut from = 1;
    for place in 0..4u8 {
        match usages.next_consumer(from) {
            Some(usage) => {
                bytes[(2 * place + 1) as usize] = (usage % 256) as u8;
                bytes[(2 * place + 2) as usize] = (usage / 256) as u8;
                from = usage + 1;
            },
            None => return bytes,
        }
    }
    bytes
}
