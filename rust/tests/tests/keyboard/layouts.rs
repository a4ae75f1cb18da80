//! A second layout, of which no entry is the standard's, and what it shows.

use crate::board::{Board, BoardOf};
use wuzhikar::{Defaults, EpAnswer, Layout, Standard, Work};
use wuzhikar_tests::images::{self, Table};
use wuzhikar_tests::other::Other;

/// Default codes that the reference knows, too.
pub trait Known: Defaults {
    fn table() -> Table;
}

impl Known for Standard {
    fn table() -> Table {
        images::standard_table()
    }
}

impl Known for Other {
    fn table() -> Table {
        Other::CODES.as_flattened().to_vec()
    }
}

#[test]
fn no_entry_is_the_standards() {
    assert!(Other::table().iter().zip(Standard::table()).all(|(code, standard)| *code != standard));
    assert_eq!(BoardOf::<Other>::blank(2).table(), Other::table());
}

/// Key 1 is a layer key (5002h) without a command. A reset gives its code back, and is one record.
#[test]
fn a_layer_key_of_the_layout() {
    BoardOf::<Other>::blank(2).rows(
        "entry 0 1 = 5002
        scans 5 1
        scans 5 1 5
        usage 09 = 01
        scans 5
        setup 2109030300000600
        out 030100010400 = ack
        work = working
        work = settled
        in = data -
        entry 0 1 = 0004
        setup 2109030300000600
        out 030200000000 = ack
        work = settled
        in = data -
        entry 0 1 = 5002
        cut
        entry 0 1 = 5002
        slot 0 2 = 00000020ffffffdf",
    );
}

/// The host gives an entry of layer 0 a code, with room in the log.
fn set(board: &mut Board, key: u8, code: u8) {
    board.keyboard.setup([0x21, 0x09, 3, 3, 0, 0, 6, 0]);
    assert_eq!(board.keyboard.out(&[3, 1, 0, key, code, 0]), EpAnswer::Ack);
    while board.work(None) == Work::Working {}
}

/// The keymap once a firmware with another layout runs on the flash.
fn updated(board: Board) -> Table {
    let board = BoardOf::<Other>::on(board.flash);
    assert!(!board.keyboard.is_first_start());
    board.table()
}

/// An entry keeps the code of its record. The others follow the new layout, and so does one that was given its old default back,
/// once a compaction has left it out.
#[test]
fn an_update_with_another_layout() {
    let mut wanted = Other::table();
    (wanted[0], wanted[1]) = (0x0070, 0x0005);
    for compacts in [false, true] {
        let mut board = Board::blank(2);
        for (key, code) in [(0, 0x70), (1, 0x71), (1, 0x05)] {
            set(&mut board, key, code);
        }
        if compacts {
            (0..511).for_each(|command| set(&mut board, 0, if command % 2 == 0 { 0x72 } else { 0x70 }));
            set(&mut board, 0, 0x70);
            wanted[1] = Other::table()[1];
        }
        assert_eq!(updated(board), wanted);
    }
}

/// A reset leaves its layer to the new layout.
#[test]
fn an_update_after_a_reset() {
    let mut board = Board::blank(2);
    set(&mut board, 0, 0x70);
    board.rows("setup 2109030300000600\n out 030200000000 = ack\n work = settled\n in = data -");
    assert_eq!(updated(board), Other::table());
}
