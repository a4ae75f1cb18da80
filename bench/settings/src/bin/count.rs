// SPDX-License-Identifier: MIT OR Apache-2.0
//! On a computer: `count BYTES IDS CHANGES` gives ids values of so many bytes in turn. It prints the flash operations of all
//! changes, those of the longest call, and the erases.

use settings_cost::{Cells, PAGES};
use wuzhikar_log::{FlashSettings, PAGE_SLOTS, SLOT_BYTES};

fn main() {
    let words: Vec<usize> = std::env::args().skip(1).map(|word| word.parse().expect("a number")).collect();
    let [bytes, ids, changes] = words[..] else { panic!("count BYTES IDS CHANGES") };
    let mut slots = [[0xFF; SLOT_BYTES]; PAGES * PAGE_SLOTS];
    let cells = Cells { slots: &mut slots, programs: 0, erases: 0 };
    let mut settings = FlashSettings::mount(cells).expect("2 pages");
    for id in 0..ids {
        settings.set(id as u16, vec![0; bytes]).expect("room");
    }
    let operations = |settings: &FlashSettings<Cells<'_>>| settings.flash().programs + settings.flash().erases;
    let (first, first_erases) = (operations(&settings), settings.flash().erases);
    let mut longest = 0;
    for change in 0..changes {
        let before = operations(&settings);
        settings.set((change % ids) as u16, vec![(change / ids + 1) as u8; bytes]).expect("room");
        longest = longest.max(operations(&settings) - before);
    }
    println!("{} {longest} {}", operations(&settings) - first, settings.flash().erases - first_erases);
}
