// Exported from crates/descriptor_build/src/served.rt by bin/export-rust. Edit that file instead.
//! The descriptors that the keyboard serves.

use crate::parts::descriptor_build::{ReportSpec, build};
use arrayvec::ArrayVec;

/// How many bytes the served report descriptor has.
pub const SERVED_REPORT_LEN: u8 = 99;

/// The device descriptor (USB 2.0 table 9-8), 18 bytes.
pub const DEVICE: [u8; 18] = [
    0x12, 0x01, 0x00, 0x02, 0x00, 0x00, 0x00, 0x08, 0x09, 0x12, 0x01, 0x00, 0x00, 0x01, 0x00, 0x00,
    0x00, 0x01,
];

/// The configuration descriptor (USB 2.0 table 9-10), 34 bytes.
pub const CONFIGURATION: [u8; 34] = [
    // The configuration.
    0x09,
    0x02,
    0x22,
    0x00,
    0x01,
    0x01,
    0x00,
    0x80,
    0x32,
    // Its interface.
    0x09,
    0x04,
    0x00,
    0x00,
    0x01,
    0x03,
    0x01,
    0x01,
    0x00,
    // The HID descriptor.
    0x09,
    0x21,
    0x11,
    0x01,
    0x00,
    0x01,
    0x22,
    SERVED_REPORT_LEN,
    0x00,
    // Its endpoint.
    0x07,
    0x05,
    0x81,
    0x03,
    0x20,
    0x00,
    0x0A,
];

/// The HID descriptor (HID 1.11 section 6.2.1), 9 bytes.
pub const HID: [u8; 9] = [
    0x09,
    0x21,
    0x11,
    0x01,
    0x00,
    0x01,
    0x22,
    SERVED_REPORT_LEN,
    0x00,
];

/// A main item's data: array or variable, data or constant (HID 1.11 section 6.2.2.5).
const DATA_ARRAY: u8 = 0x00;

const DATA_VARIABLE: u8 = 0x02;

const CONSTANT_VARIABLE: u8 = 0x03;

/// The Application collection (HID 1.11 section 6.2.2.6).
const APPLICATION: u8 = 0x01;

/// The served report descriptor's items.
const SERVED_ITEMS: [ReportSpec; 49] = [
    // Report 1: modifiers, keys and LEDs.
    ReportSpec::UsagePage(0x01),
    ReportSpec::Usage(0x06),
    ReportSpec::Collection(APPLICATION),
    ReportSpec::ReportId(1),
    ReportSpec::UsagePage(0x07),
    ReportSpec::UsageMin(0xE0),
    ReportSpec::UsageMax(0xE7),
    ReportSpec::LogicalMin(0),
    ReportSpec::LogicalMax(1),
    ReportSpec::ReportSize(1),
    ReportSpec::ReportCount(8),
    ReportSpec::Input(DATA_VARIABLE),
    ReportSpec::UsageMin(0x04),
    ReportSpec::UsageMax(0xA4),
    ReportSpec::ReportCount(161),
    ReportSpec::Input(DATA_VARIABLE),
    ReportSpec::ReportCount(7),
    ReportSpec::Input(CONSTANT_VARIABLE),
    ReportSpec::UsagePage(0x08),
    ReportSpec::UsageMin(0x01),
    ReportSpec::UsageMax(0x05),
    ReportSpec::ReportCount(5),
    ReportSpec::Output(DATA_VARIABLE),
    ReportSpec::ReportCount(3),
    ReportSpec::Output(CONSTANT_VARIABLE),
    ReportSpec::EndCollection,
    // Report 2: four consumer usages.
    ReportSpec::UsagePage(0x0C),
    ReportSpec::Usage(0x01),
    ReportSpec::Collection(APPLICATION),
    ReportSpec::ReportId(2),
    ReportSpec::LogicalMin(0),
    ReportSpec::LogicalMax(0x3FF),
    ReportSpec::UsageMin(0x00),
    ReportSpec::UsageMax(0x3FF),
    ReportSpec::ReportSize(16),
    ReportSpec::ReportCount(4),
    ReportSpec::Input(DATA_ARRAY),
    ReportSpec::EndCollection,
    // Report 3: the feature data.
    ReportSpec::UsagePage(0xFF00),
    ReportSpec::Usage(0x01),
    ReportSpec::Collection(APPLICATION),
    ReportSpec::ReportId(3),
    ReportSpec::Usage(0x02),
    ReportSpec::LogicalMin(0),
    ReportSpec::LogicalMax(255),
    ReportSpec::ReportSize(8),
    ReportSpec::ReportCount(5),
    ReportSpec::Feature(DATA_VARIABLE),
    ReportSpec::EndCollection,
];

/// The served report descriptor (HID 1.11 section 6.2.2), 99 bytes, as it is sent.
pub const SERVED_REPORT: [u8; 99] = [
    // Report 1: modifiers, keys and LEDs.
    0x05, 0x01, 0x09, 0x06, 0xA1, 0x01, 0x85, 0x01, 0x05, 0x07, 0x19, 0xE0, 0x29, 0xE7, 0x15, 0x00,
    0x25, 0x01, 0x75, 0x01, 0x95, 0x08, 0x81, 0x02, 0x19, 0x04, 0x29, 0xA4, 0x95, 0xA1, 0x81, 0x02,
    0x95, 0x07, 0x81, 0x03, 0x05, 0x08, 0x19, 0x01, 0x29, 0x05, 0x95, 0x05, 0x91, 0x02, 0x95, 0x03,
    0x91, 0x03, 0xC0,
    // Report 2: four consumer usages.
    0x05, 0x0C, 0x09, 0x01, 0xA1, 0x01, 0x85, 0x02, 0x15, 0x00, 0x26, 0xFF, 0x03, 0x19, 0x00, 0x2A,
    0xFF, 0x03, 0x75, 0x10, 0x95, 0x04, 0x81, 0x00, 0xC0,
    // Report 3: the feature data.
    0x06, 0x00, 0xFF, 0x09, 0x01, 0xA1, 0x01, 0x85, 0x03, 0x09, 0x02, 0x15, 0x00, 0x26, 0xFF, 0x00,
    0x75, 0x08, 0x95, 0x05, 0xB1, 0x02, 0xC0,
];

/// The served report descriptor, built from its items: the bytes of `SERVED_REPORT`.
pub fn served_report() -> ArrayVec<u8, 256> {
    match build(&SERVED_ITEMS) {
        Ok(bytes) => bytes,
        Err(_) => unreachable!(),
    }
}
