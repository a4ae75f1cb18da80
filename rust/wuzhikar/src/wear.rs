//! What a host can make of the flash, by commands and by cuts of the power: the numbers of SECURITY.md. And what holds of a
//! record that a cut tore and that reads whole: docs/log.md.

use crate::{EpAnswer, FlashKeyboard, KeyNo, LayerNo, Work};
use wuzhikar_log::{FlashFault, NorFlash, PAGE_SLOTS};

/// A flash that counts, and whose operations fail once `left` of them were made.
#[derive(Debug)]
struct Counted {
    pages: Vec<[[u8; 8]; PAGE_SLOTS]>,
    erases: Vec<u32>,
    programs: u32,
    left: Option<u32>,
}

impl Counted {
    fn blank(pages: usize) -> Counted {
        Counted { pages: vec![[[0xFF; 8]; PAGE_SLOTS]; pages], erases: vec![0; pages], programs: 0, left: None }
    }

    fn operation(&mut self) -> Result<(), FlashFault> {
        match &mut self.left {
            Some(0) => Err(FlashFault),
            Some(left) => {
                *left -= 1;
                Ok(())
            }
            None => Ok(()),
        }
    }
}

impl NorFlash for Counted {
    fn pages(&self) -> usize {
        self.pages.len()
    }

    fn read_slot(&self, page: usize, slot: usize) -> [u8; 8] {
        self.pages[page][slot]
    }

    fn program_slot(&mut self, page: usize, slot: usize, bytes: [u8; 8]) -> Result<(), FlashFault> {
        self.operation()?;
        self.programs += 1;
        self.pages[page][slot].iter_mut().zip(bytes).for_each(|(cell, byte)| *cell &= byte);
        Ok(())
    }

    fn erase_page(&mut self, page: usize) -> Result<(), FlashFault> {
        self.operation()?;
        self.erases[page] += 1;
        self.pages[page] = [[0xFF; 8]; PAGE_SLOTS];
        Ok(())
    }
}

/// The host sets an entry, and waits until the command is stored or has failed.
fn set(keyboard: &mut FlashKeyboard<Counted>, entry: u32, code: u8) -> Work {
    keyboard.setup([0x21, 9, 3, 3, 0, 0, 6, 0]);
    assert_eq!(keyboard.out(&[3, 1, (entry / 96) as u8, (entry % 96) as u8, code, 0]), EpAnswer::Ack);
    loop {
        match keyboard.work() {
            Work::Working => {}
            ended => return ended,
        }
    }
}

/// A keyboard of which each of the 384 entries has been changed.
fn changed(pages: usize) -> FlashKeyboard<Counted> {
    let mut keyboard = FlashKeyboard::start(Counted::blank(pages)).expect("2 to 8 pages");
    (0..384).for_each(|entry| assert_eq!(set(&mut keyboard, entry, 0x70), Work::Settled));
    keyboard
}

/// The host sets entry 0 to another code, so many times.
fn change(keyboard: &mut FlashKeyboard<Counted>, commands: u32) {
    (0..commands).for_each(|number| assert_eq!(set(keyboard, 0, 6 + (number % 2) as u8), Work::Settled));
}

#[test]
fn each_page_is_erased_once_in_254_commands_with_2_pages_and_in_1016_with_8() {
    for (pages, commands) in [(2, 254), (8, 1016)] {
        let mut keyboard = changed(pages);
        // Once round: a page that is blank is not erased.
        change(&mut keyboard, commands + 2);
        let before = (keyboard.flash().erases.clone(), keyboard.flash().programs);
        change(&mut keyboard, 10 * commands);
        let flash = keyboard.flash();
        assert!(flash.erases.iter().zip(before.0).all(|(now, before)| now - before == 10), "{:?}", flash.erases);
        // Each erase comes with the 512 slots of a page.
        assert_eq!(flash.programs - before.1, 10 * pages as u32 * 512);
    }
}

#[test]
fn a_power_loss_in_each_compaction_costs_an_erase_a_time() {
    let mut keyboard = changed(2);
    // Until page 1 is full. Page 0 was active before.
    for code in (6..=7).cycle() {
        if keyboard.flash().read_slot(1, PAGE_SLOTS - 1) != [0xFF; 8] {
            break;
        }
        assert_eq!(set(&mut keyboard, 0, code), Work::Settled);
    }
    let before = keyboard.flash().erases[0];
    for _ in 0..50 {
        keyboard.restart(|flash| flash.left = Some(2));
        assert_eq!(set(&mut keyboard, 0, 9), Work::Failed);
    }
    assert_eq!(keyboard.flash().erases[0] - before, 50);
}

#[test]
fn a_torn_record_that_reads_whole_is_acknowledged_without_an_operation() {
    let mut keyboard = FlashKeyboard::start(Counted::blank(2)).expect("2 pages");
    assert_eq!(set(&mut keyboard, 0, 5), Work::Settled);
    let shown = |keyboard: &FlashKeyboard<Counted>| match (LayerNo::read(0), KeyNo::read(0)) {
        (Ok(layer), Ok(key)) => keyboard.keyboard().keymap().get(layer, key).bits(),
        _ => panic!("entry 0"),
    };
    // Code 6 was under way; its cells are between their levels, and read as clear at this start.
    keyboard.restart(|flash| flash.pages[0][2] = [6, 0, 0, 0x10, 0xF9, 0xFF, 0xFF, 0xEF]);
    let programs = keyboard.flash().programs;
    assert_eq!(set(&mut keyboard, 0, 6), Work::Idle);
    assert!(matches!(keyboard.in_packet(), EpAnswer::Packet(packet) if packet.is_empty()));
    assert_eq!((shown(&keyboard), keyboard.flash().programs), (6, programs));
    // At a later start one of them reads as set.
    keyboard.restart(|flash| flash.pages[0][2][0] |= 0x80);
    assert_eq!(shown(&keyboard), 5);
}

#[test]
fn a_firmware_that_takes_the_report_id_away_locks_the_keymap() {
    let mut keyboard = FlashKeyboard::start(Counted::blank(2)).expect("2 pages");
    let keymap = keyboard.keyboard().keymap().clone();
    keyboard.setup([0x21, 9, 0, 3, 0, 0, 6, 0]);
    assert!(matches!(keyboard.out(&[3, 1, 0, 0, 5, 0]), EpAnswer::Stall(_)));
    assert!(matches!(keyboard.in_packet(), EpAnswer::Stall(_)));
    assert_eq!(keyboard.work(), Work::Idle);
    assert!(*keyboard.keyboard().keymap() == keymap);
}
