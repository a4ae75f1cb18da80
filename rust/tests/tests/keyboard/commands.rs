//! Commands where operations are torn, by a fault or by a cut of the power inside them: the keymap is changed exactly where the
//! host is told so, in RAM and after a restart, beside a plain reading of the flash.

use crate::board::BoardOf;
use crate::layouts::Known;
use proptest::collection::vec;
use proptest::prelude::*;
use wuzhikar::{EpAnswer, SimFlash, Standard, Why, Work};
use wuzhikar_tests::images::{self, Refusal, good};
use wuzhikar_tests::other::Other;

/// SET_REPORT of the feature report.
const SET_FEATURE: [u8; 8] = [0x21, 0x09, 0x03, 0x03, 0x00, 0x00, 0x06, 0x00];

/// The feature report of the command that is stored as a word.
fn report_of(word: u32) -> [u8; 6] {
    let [low, high, key, top] = word.to_le_bytes();
    [3, top / 16, top % 16, key, low, high]
}

/// What becomes of one operation of a command, counted from 1: a mask tears it, or the power is cut behind it, or both.
#[derive(Clone, Debug, Default)]
struct Trouble {
    torn: Option<(usize, Vec<u8>)>,
    cut: Option<usize>,
}

/// Takes a command, and compares all that comes of it; `table` is the keymap before it and becomes the one after it.
fn take<D: Known>(board: &mut BoardOf<D>, table: &mut images::Table, word: u32, trouble: &Trouble) {
    let defaults = D::table();
    let mut after = table.clone();
    images::apply(&mut after, &defaults, 2, word);
    let wanted = images::operations(board.flash.image(), &defaults, table, &after);
    let begun = board.flash.image().to_vec();
    board.keyboard.setup(SET_FEATURE);
    let answer = board.keyboard.out(&report_of(word));
    match wanted {
        Err(Refusal::Unsound) => assert_eq!(answer, EpAnswer::Stall(Why::Unsound)),
        Err(Refusal::Worn) => assert_eq!(answer, EpAnswer::Stall(Why::Worn)),
        Ok(operations) => {
            assert_eq!(answer, EpAnswer::Ack);
            if work(board, operations, trouble) {
                *table = after;
            }
        }
    }
    assert!(wanted.is_ok_and(|operations| operations > 0) || board.flash.image() == begun, "a flash is written");
    assert_eq!((&board.table(), &images::table(board.flash.image(), &defaults)), (&*table, &*table));
    assert_eq!(images::unsound(board.flash.image()), images::unsound(&begun));
}

/// Works on a command that takes so many operations; whether it is stored.
fn work<D: Known>(board: &mut BoardOf<D>, operations: usize, trouble: &Trouble) -> bool {
    for operation in 1..=operations {
        assert_eq!(board.keyboard.in_packet(), EpAnswer::Nak);
        let mask = trouble.torn.as_ref().filter(|torn| torn.0 == operation).map(|torn| &torn.1[..]);
        let work = board.work(mask);
        match work {
            Work::Working => assert!(operation < operations),
            Work::Settled => assert_eq!(operation, operations),
            Work::Failed => assert!(mask.is_some(), "operation {operation} fails"),
            Work::Idle => panic!("operation {operation} is idle"),
        }
        if trouble.cut == Some(operation) {
            board.cut();
            return work == Work::Settled;
        }
        if work == Work::Failed {
            assert_eq!(board.keyboard.in_packet(), EpAnswer::Stall(Why::FlashFault));
            return false;
        }
    }
    assert!(matches!(board.keyboard.in_packet(), EpAnswer::Packet(packet) if packet.is_empty()));
    assert_eq!(board.work(None), Work::Idle);
    true
}

/// Takes a command once for each of its operations, each mask, and a fault or a cut, and then once more, whole, on the flash
/// that an image gives.
fn each_torn<D: Known>(image: &[u8], word: u32, operations: usize) {
    let start = images::table(image, &D::table());
    for operation in 1..=operations {
        for mask in [&[0x00][..], &[0x01], &[0x0F], &[0x55], &[0xAA], &[0xFE], &[0xFF], &[0xF0, 0x81, 0x3C]] {
            for cut in [None, Some(operation)] {
                let mut board = BoardOf::<D>::on(SimFlash::from_image(image.to_vec()).expect("a flash"));
                let mut table = start.clone();
                take(&mut board, &mut table, word, &Trouble { torn: Some((operation, mask.to_vec())), cut });
                take(&mut board, &mut table, word, &Trouble::default());
                board.cut();
                assert_eq!(board.table(), table);
            }
        }
    }
}

/// An image of two pages with these words on page 0.
fn image(words: impl IntoIterator<Item = u32>) -> Vec<u8> {
    let mut image = vec![0xFF; 8192];
    for (slot, word) in words.into_iter().enumerate() {
        images::put(&mut image, 0, slot, good(word));
    }
    image
}

#[test]
fn each_operation_torn() {
    let full = image([0x2000_0001].into_iter().chain([0x1000_0005; 511]));
    let mut begun = full.clone();
    images::put(&mut begun, 1, 1, good(0x1000_0005));
    images::put(&mut begun, 1, 0, [0xAA, 0xAA, 0xAA, 0xAA, 0xFF, 0xFF, 0xFF, 0xFF]);
    // A header and a record; a copy, a header and a record; an erase first; and a copy whose code is another one in format 2.
    for (image, operations) in [(vec![0xFF; 8192], 2), (full, 3), (begun, 4), (image([0x1000_0001, 0x1000_400D]), 3)] {
        each_torn::<Standard>(&image, 0x1001_0006, operations);
        each_torn::<Other>(&image, 0x1001_0006, operations);
    }
}

/// A full page of format 1 on which each entry differs from the default, and whose next page is not blank.
fn longest() -> Vec<u8> {
    let entries = (0..384u32).map(|place| 0x1000_0070 | (place / 96) << 24 | (place % 96) << 16);
    let rest = (385..512).map(|slot| if slot % 2 == 1 { 0x1000_0005 } else { 0x1000_0000 });
    let mut image = image([0x1000_0001].into_iter().chain(entries).chain(rest));
    images::put(&mut image, 1, 9, [0; 8]);
    image
}

#[test]
fn each_operation_of_the_longest_command_torn() {
    each_torn::<Standard>(&longest(), 0x1000_0000, 387);
    each_torn::<Other>(&longest(), 0x1000_0000, 387);
}

/// A code of either format, or none.
fn code() -> impl Strategy<Value = u16> {
    prop_oneof![
        Just(0u16),
        Just(1),
        0xE0u16..0xE8,
        0x4000u16..0x4010,
        0x4001u16..0x4400,
        0x5001u16..0x5004,
        4u16..0xA5,
        4u16..0xA5,
    ]
}

/// The word of a command: mostly one that sets an entry, of which there are few.
fn command() -> impl Strategy<Value = u32> {
    let sets = |keys| {
        (0u32..4, 0u32..keys, code()).prop_map(|(layer, key, code)| {
            0x1000_0000 | layer << 24 | key << 16 | u32::from(if code == 0x4000 { 5 } else { code })
        })
    };
    prop_oneof![
        8 => sets(3),
        8 => sets(96),
        1 => (0u32..4).prop_map(|layer| 0x2000_0000 | layer << 24),
        1 => Just(0x3000_0000),
    ]
}

fn trouble() -> impl Strategy<Value = Trouble> {
    let operation = || prop_oneof![3 => 1usize..5, 1 => 1usize..388];
    let mask = prop_oneof![9 => vec(any::<u8>(), 0..9), 1 => vec(any::<u8>(), 4096)];
    (proptest::option::of((operation(), mask)), proptest::option::of(operation())).prop_map(|(torn, cut)| Trouble { torn, cut })
}

/// The bytes of slot 0 of a page: a header with a number of 1 to 3 or the greatest, none, or bytes that are mostly not sound.
fn header() -> impl Strategy<Value = [u8; 8]> {
    let sound = |[a, b, c, d, e, f, g, h]: [u8; 8]| [a, b, c, d, e | !a, f | !b, g | !c, h | !d];
    prop_oneof![
        1 => any::<[u8; 8]>(),
        3 => any::<[u8; 8]>().prop_map(sound),
        2 => Just([0xFF; 8]),
        2 => (1u32..3).prop_map(|format| good((format << 28) + 0x0FFF_FFFF)),
        24 => (1u32..3, 1u32..4).prop_map(|(format, number)| good((format << 28) + number)),
    ]
}

/// The bytes of a slot after the first: mostly the record of a command, else another word, or no word.
fn record() -> impl Strategy<Value = [u8; 8]> {
    let of_format_1 = (code(), 0u32..96).prop_map(|(code, key)| good(0x1000_0000 | key << 16 | u32::from(code)));
    prop_oneof![
        12 => command().prop_map(good),
        4 => of_format_1,
        1 => any::<u32>().prop_map(good),
        1 => any::<[u8; 8]>(),
        1 => Just([0xFF; 8]),
    ]
}

/// A page that is blank, full, or filled up to some slot.
fn page() -> impl Strategy<Value = Vec<u8>> {
    let end = prop_oneof![Just(0usize), 1usize..512, 500usize..512, Just(512)];
    (header(), vec(record(), 1..60), end).prop_map(|(header, records, end)| {
        let mut page = vec![0xFF; 4096];
        for (slot, bytes) in std::iter::once(&header).chain(records.iter().cycle()).take(end).enumerate() {
            images::put(&mut page, 0, slot, *bytes);
        }
        page
    })
}

/// Takes commands on a flash of these pages, and compares all that comes of each.
fn outlive<D: Known>(pages: &[Vec<u8>], commands: &[(u32, Trouble)]) {
    let mut board = BoardOf::<D>::on(SimFlash::from_image(pages.concat()).expect("a flash"));
    let mut table = images::table(board.flash.image(), &D::table());
    assert_eq!(board.table(), table);
    assert_eq!(board.keyboard.is_first_start(), images::newest(board.flash.image()).is_none());
    for (word, trouble) in commands {
        take(&mut board, &mut table, *word, trouble);
    }
}

proptest! {
    #![proptest_config(ProptestConfig::with_cases(400))]

    #[test]
    fn commands_outlive_faults_and_cuts(
        pages in prop_oneof![vec(page(), 2), vec(page(), 3), vec(page(), 8), Just(vec![vec![0xFF; 4096]; 2])],
        commands in vec((command(), trouble()), 1..60),
        is_standard in any::<bool>(),
    ) {
        let outlive = if is_standard { outlive::<Standard> } else { outlive::<Other> };
        outlive(&pages, &commands);
    }
}
