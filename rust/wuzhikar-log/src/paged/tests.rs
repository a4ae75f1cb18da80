//! Refusals by name, what is never written, how full a flash can be, and a power loss inside each operation of some changes.

use std::collections::BTreeMap;
use std::vec::Vec;

use super::*;
use crate::{FlashLog, Mask, SimFlash};

type Settings = PagedSettings<SimFlash>;

fn blank(pages: usize) -> Settings {
    Settings::mount(SimFlash::blank(pages).unwrap()).unwrap()
}

fn read(settings: &Settings, id: u16) -> Option<Vec<u8>> {
    settings.get(id, &mut [0; MAX_BYTES]).unwrap().map(<[u8]>::to_vec)
}

#[test]
fn values_of_all_lengths_are_read_back() {
    let mut settings = blank(3);
    for len in (0..70).chain([900, 1023, 1024]) {
        let value: Vec<u8> = (0..len).map(|at| (at * 7 + len) as u8).collect();
        settings.set(len as u16 % 3, &value).unwrap();
        assert_eq!(read(&settings, len as u16 % 3), Some(value));
    }
    assert_eq!(settings.set(9, [0; 1025]), Err(SettingsError::TooLong));
    assert_eq!(settings.get(0, &mut [0; 5]), Err(SettingsError::TooLong));
}

#[test]
fn what_changes_nothing_writes_nothing() {
    let mut settings = blank(2);
    settings.remove(3).unwrap();
    settings.transaction(&[]).unwrap();
    assert!(settings.flash().image().iter().all(|&byte| byte == 0xFF));
    settings.set(3, "three").unwrap();
    let before = settings.flash().image().to_vec();
    settings.set(3, "three").unwrap();
    settings.transaction(&[Change { id: 3, value: Some(b"three") }, Change { id: 4, value: None }]).unwrap();
    assert_eq!(settings.flash().image(), before);
}

#[test]
fn all_pages_but_one_hold_values_and_a_full_flash_can_be_emptied() {
    for pages in 2..=8 {
        let mut settings = blank(pages);
        let stored = (0..).take_while(|&id| settings.set(id, [id as u8; 64]).is_ok()).count();
        assert!(stored == (pages - 1) * 22 || stored == (pages - 1) * 22 + 1, "{pages} pages: {stored}");
        let before = settings.flash().image().to_vec();
        assert_eq!(settings.set(500, [1; 64]), Err(SettingsError::Full));
        assert_eq!(settings.flash().image(), before);
        let mut ids: Vec<u16> = settings.ids().collect();
        ids.sort();
        assert!(ids.into_iter().eq(0..stored as u16));
        (0..stored as u16).for_each(|id| settings.remove(id).unwrap());
        assert_eq!(settings.ids().count(), 0);
        settings.set(500, [1; 64]).unwrap();
    }
}

#[test]
fn a_page_of_values_without_bytes_can_be_emptied() {
    let mut settings = blank(2);
    assert_eq!((0..).take_while(|&id| settings.set(id, []).is_ok()).count(), 510);
    (0..510).for_each(|id| settings.remove(id).unwrap());
    assert_eq!(settings.ids().count(), 0);
}

#[test]
fn changes_fill_a_page_and_no_more() {
    let changes = |len| [(1, [1; 1024].to_vec()), (2, [2; 500][..len].to_vec())];
    let mut settings = blank(2);
    let mut store = |len| {
        let values = changes(len);
        let all = values.each_ref().map(|(id, value)| Change { id: *id, value: Some(value) });
        (settings.transaction(&all), settings.flash().image().iter().all(|&byte| byte == 0xFF), read(&settings, 2))
    };
    assert_eq!(store(500), (Err(SettingsError::Full), true, None));
    assert_eq!(store(498), (Ok(()), false, Some([2; 498].to_vec())));
}

#[test]
fn pages_of_something_else_are_refused_by_name_and_left() {
    let mut log = FlashLog::mount(SimFlash::blank(4).unwrap()).unwrap();
    log.rewrite([5]).unwrap();
    let mut settings = Settings::mount(log.into_flash()).unwrap();
    let before = settings.flash().image().to_vec();
    assert_eq!(settings.set(1, "one"), Err(SettingsError::Foreign));
    assert_eq!(settings.flash().image(), before);
    let (mut settings, _) = Settings::format(settings.into_flash()).unwrap();
    settings.set(1, "one").unwrap();
}

#[test]
fn a_page_that_lost_its_header_or_has_another_number_is_refused_by_name() {
    let mut settings = blank(4);
    for id in 0..60 {
        settings.set(id, [id as u8; 64]).unwrap();
    }
    // Three pages count, with numbers 0 to 2.
    for page in 0..2 {
        let mut flash = settings.flash().clone();
        flash.erase_page(page).unwrap();
        let mut lost = Settings::mount(flash).unwrap();
        let before = lost.flash().image().to_vec();
        assert_eq!(lost.set(1, "one"), Err(SettingsError::Damaged), "page {page}");
        assert_eq!(lost.flash().image(), before);
    }
    // The same number twice: it is that of another place.
    let mut flash = settings.flash().clone();
    let header = flash.read_slot(2, 0);
    flash.program_slot(3, 0, header).unwrap();
    assert_eq!(Settings::mount(flash).unwrap().set(1, "one"), Err(SettingsError::Foreign));
    // All that a spoiled slot 0 can be.
    let mut flash = settings.into_flash();
    flash.program_slot(3, 0, [0; 8]).unwrap();
    assert_eq!(Settings::mount(flash).unwrap().set(1, "one"), Err(SettingsError::Damaged));
}

/// A slot that is spoiled ends a value, and no word behind it joins what stands before.
#[test]
fn a_spoiled_slot_loses_its_own_change_and_makes_no_other() {
    let mut settings = blank(2);
    settings.set(1, "before").unwrap();
    settings.set(1, "abcdef").unwrap();
    settings.set(2, "uvwxyz").unwrap();
    settings.transaction(&[Change { id: 1, value: Some(b"ghi") }, Change { id: 3, value: Some(b"jkl") }]).unwrap();
    let flash = settings.into_flash();
    let values = |flash: SimFlash| {
        let settings = Settings::mount(flash).unwrap();
        [1, 2, 3].map(|id| read(&settings, id))
    };
    let some = |text: &str| Some(text.as_bytes().to_vec());
    let whole = [some("ghi"), some("uvwxyz"), some("jkl")];
    assert_eq!(values(flash.clone()), whole);
    for slot in 1..14 {
        let mut spoiled = flash.clone();
        spoiled.program_slot(0, slot, [0; 8]).unwrap();
        let left = match slot {
            1..=6 => whole.clone(),
            7..=9 => [some("ghi"), None, some("jkl")],
            10..=13 => [some("abcdef"), some("uvwxyz"), None],
            _ => unreachable!(),
        };
        assert_eq!(values(spoiled), left, "slot {slot}");
    }
    // The end of one value and the head of the next.
    let mut spoiled = flash;
    for slot in [6, 7, 10, 12] {
        spoiled.program_slot(0, slot, [0; 8]).unwrap();
    }
    assert_eq!(values(spoiled), [some("before"), None, None]);
}

/// A flash whose power is cut inside an operation, which is torn by a mask: that behind `left` others. From then on nothing happens.
struct Cut {
    flash: SimFlash,
    left: usize,
    mask: u8,
    is_off: bool,
}

impl Cut {
    fn operate(&mut self, operation: impl FnOnce(&mut SimFlash) -> Result<(), FlashFault>) -> Result<(), FlashFault> {
        if self.is_off {
            return Err(FlashFault);
        }
        if self.left == 0 {
            self.flash.fault_next(Mask::from_iter([self.mask]));
            self.is_off = true;
        }
        self.left = self.left.saturating_sub(1);
        operation(&mut self.flash)
    }
}

impl NorFlash for Cut {
    fn pages(&self) -> usize {
        self.flash.pages()
    }

    fn read_slot(&self, page: usize, slot: usize) -> [u8; 8] {
        self.flash.read_slot(page, slot)
    }

    fn program_slot(&mut self, page: usize, slot: usize, bytes: [u8; 8]) -> Result<(), FlashFault> {
        self.operate(|flash| flash.program_slot(page, slot, bytes))
    }

    fn erase_page(&mut self, page: usize) -> Result<(), FlashFault> {
        self.operate(|flash| flash.erase_page(page))
    }
}

fn all(settings: &Settings) -> BTreeMap<u16, Vec<u8>> {
    settings.ids().map(|id| (id, read(settings, id).unwrap())).collect()
}

fn apply(values: &mut BTreeMap<u16, Vec<u8>>, changes: &[Change<'_>]) {
    for change in changes {
        match change.value {
            Some(value) => values.insert(change.id, value.to_vec()),
            None => values.remove(&change.id),
        };
    }
}

/// Cuts the power inside each operation of some changes; returns the flash with all of them made.
fn cut_everywhere(start: SimFlash, changes: &[Change<'_>]) -> SimFlash {
    let before = all(&Settings::mount(start.clone()).unwrap());
    let mut after = before.clone();
    apply(&mut after, changes);
    for left in 0.. {
        for mask in [0, 0xFF, 0x5A] {
            let mut cut = PagedSettings::mount(Cut { flash: start.clone(), left, mask, is_off: false }).unwrap();
            let answer = cut.transaction(changes);
            let Cut { flash, is_off, .. } = cut.into_flash();
            let mut settings = Settings::mount(flash).unwrap();
            let mut found = all(&settings);
            assert!(found == after || is_off && found == before, "{found:?} is neither {before:?} nor {after:?}");
            // Another change revives nothing of it, and then it is made again.
            settings.set(6, [mask]).unwrap();
            found.insert(6, [mask].to_vec());
            assert_eq!(all(&settings), found);
            settings.transaction(changes).unwrap();
            apply(&mut found, changes);
            assert_eq!(all(&settings), found);
            if !is_off {
                answer.unwrap();
                return settings.into_flash();
            }
        }
    }
    unreachable!()
}

#[test]
fn a_power_loss_inside_each_operation_leaves_all_changes_or_none() {
    for pages in 2..=4 {
        let mut settings = blank(pages);
        for step in 0..40_u8 {
            for filler in 0.. {
                if settings.room_left() < 40 {
                    break;
                }
                settings.set(9, [step ^ filler; 100]).unwrap();
            }
            let (id, value) = (u16::from(step / 4 % 4), [step; 20]);
            let set = Change { id, value: Some(&value[..5 + usize::from(step % 15)]) };
            let changes = match step % 4 {
                0 => [set].to_vec(),
                1 => [set, Change { id: 7, value: Some(&value) }, Change { id: 8, value: Some(&[]) }].to_vec(),
                2 => [Change { id: 7, value: None }, set].to_vec(),
                _ => [Change { id, value: None }].to_vec(),
            };
            settings = Settings::mount(cut_everywhere(settings.into_flash(), &changes)).unwrap();
        }
    }
}
