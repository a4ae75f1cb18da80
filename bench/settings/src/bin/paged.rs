// SPDX-License-Identifier: MIT OR Apache-2.0
//! On a computer: `paged IDS` gives so many ids values of 4 bytes, on 8 pages. It prints the reads of slots of a `get`, of all ids,
//! of the shortest `set` and of the longest of 2,000, and the flash operations of that one.

use std::cell::Cell;

use wuzhikar_log::paged::PagedSettings;
use wuzhikar_log::{FlashFault, NorFlash, PAGE_SLOTS, SLOT_BYTES};

const PAGES: usize = 8;

struct Counted {
    slots: Vec<[u8; SLOT_BYTES]>,
    reads: Cell<usize>,
    operations: usize,
}

impl NorFlash for Counted {
    fn pages(&self) -> usize {
        PAGES
    }

    fn read_slot(&self, page: usize, slot: usize) -> [u8; SLOT_BYTES] {
        self.reads.set(self.reads.get() + 1);
        self.slots[PAGE_SLOTS * page + slot]
    }

    fn program_slot(&mut self, page: usize, slot: usize, bytes: [u8; SLOT_BYTES]) -> Result<(), FlashFault> {
        self.operations += 1;
        self.slots[PAGE_SLOTS * page + slot].iter_mut().zip(bytes).for_each(|(cell, byte)| *cell &= byte);
        Ok(())
    }

    fn erase_page(&mut self, page: usize) -> Result<(), FlashFault> {
        self.operations += 1;
        self.slots[PAGE_SLOTS * page..][..PAGE_SLOTS].fill([0xFF; SLOT_BYTES]);
        Ok(())
    }
}

/// How many slots a call reads, and how many operations it makes.
fn counts(settings: &mut PagedSettings<Counted>, call: impl FnOnce(&mut PagedSettings<Counted>)) -> (usize, usize) {
    let counted = |settings: &PagedSettings<Counted>| (settings.flash().reads.get(), settings.flash().operations);
    let before = counted(settings);
    call(settings);
    let after = counted(settings);
    (after.0 - before.0, after.1 - before.1)
}

fn main() {
    let ids: u32 = std::env::args().nth(1).and_then(|word| word.parse().ok()).expect("paged IDS");
    let flash = Counted { slots: vec![[0xFF; SLOT_BYTES]; PAGES * PAGE_SLOTS], reads: Cell::new(0), operations: 0 };
    let mut settings = PagedSettings::mount(flash).expect("8 pages");
    // Each id in turn, until all pages count.
    for change in 0..ids.max(2_000) {
        settings.set((change % ids) as u16, change.to_le_bytes()).expect("room");
    }
    let (get, _) = counts(&mut settings, |settings| assert!(settings.value(0).expect("4 bytes").is_some()));
    let (all, _) = counts(&mut settings, |settings| assert_eq!(settings.ids().count(), ids as usize));
    let sets: Vec<(usize, usize)> = (0..2_000)
        .map(|change| {
            counts(&mut settings, |settings| settings.set((change * 7 % ids) as u16, (!change).to_le_bytes()).expect("room"))
        })
        .collect();
    let (least, most) = (sets.iter().min().expect("sets"), sets.iter().max().expect("sets"));
    println!("{get} {all} {} {} {}", least.0, most.0, most.1);
}
