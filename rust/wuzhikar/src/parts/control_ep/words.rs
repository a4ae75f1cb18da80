// Exported from crates/control_ep/src/words.rt by bin/export-rust. Edit that file instead.
//! The served descriptors as words, the first byte in the low bits, with zeros up to a whole packet.

/// The device descriptor.
pub(crate) const DEVICE_WORDS: [u32; 6] = [
    0x0200_0112,
    0x0800_0000,
    0x0001_1209,
    0x0000_0100,
    0x0000_0100,
    0x0000_0000,
];

/// The configuration descriptor.
pub(crate) const CONFIGURATION_WORDS: [u32; 10] = [
    0x0022_0209,
    0x8000_0101,
    0x0004_0932,
    0x0103_0100,
    0x2109_0001,
    0x0100_0111,
    0x0700_6322,
    0x2003_8105,
    0x0000_0A00,
    0x0000_0000,
];

/// The HID descriptor.
pub(crate) const HID_WORDS: [u32; 4] = [0x0111_2109, 0x6322_0100, 0x0000_0000, 0x0000_0000];

/// The report descriptor.
pub(crate) const REPORT_WORDS: [u32; 26] = [
    0x0609_0105,
    0x0185_01A1,
    0xE019_0705,
    0x0015_E729,
    0x0175_0125,
    0x0281_0895,
    0xA429_0419,
    0x0281_A195,
    0x0381_0795,
    0x0119_0805,
    0x0595_0529,
    0x0395_0291,
    0x05C0_0391,
    0xA101_090C,
    0x1502_8501,
    0x03FF_2600,
    0xFF2A_0019,
    0x9510_7503,
    0xC000_8104,
    0x09FF_0006,
    0x8501_A101,
    0x1502_0903,
    0x00FF_2600,
    0x0595_0875,
    0x00C0_02B1,
    0x0000_0000,
];
