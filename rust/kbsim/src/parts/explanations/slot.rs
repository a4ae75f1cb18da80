// Exported from crates/explanations/src/slot.rt by bin/export-rust. Edit that file instead.
//! What a slot of the flash says.

use crate::parts::explanations::code::tell_command;
use wuzhikar_log::parts::flash_model::{NorFlash, SLOT_BYTES, SimFlash};
use wuzhikar::parts::layers::Command;
use wuzhikar_log::parts::records::{Slot, classify};
use core::fmt;

/// Tells a slot with these bytes, of a page of a flash.
pub(crate) fn tell_slot(
    f: &mut fmt::Formatter<'_>,
    flash: &SimFlash,
    page: u8,
    slot: u16,
    bytes: [u8; SLOT_BYTES],
) -> fmt::Result {
    match classify(bytes) {
        Slot::Free => f.write_str("free"),
        Slot::Spoiled => f.write_str("no word, torn or damaged"),
        Slot::Good(word) if slot == 0 => tell_header(f, word),
        Slot::Good(word) => tell_command(f, in_format_2(head(flash, page as usize), word)),
    }
}

/// The word of slot 0 of a page; 0 where it holds none.
fn head(flash: &SimFlash, page: usize) -> u32 {
    if page >= flash.pages() {
        return 0;
    }
    match classify(flash.read_slot(page, 0)) {
        Slot::Good(word) => word,
        Slot::Free | Slot::Spoiled => 0,
    }
}

/// A word as format 2 has it, where the page's header says how it is written.
fn in_format_2(head: u32, word: u32) -> u32 {
    if head >> 28 != 1 {
        return word;
    }
    match Command::from_format_1(word) {
        Some(command) => command.word(),
        None => word,
    }
}

/// Tells the word of a header.
fn tell_header(f: &mut fmt::Formatter<'_>, word: u32) -> fmt::Result {
    let format = word >> 28;
    let number = word % 0x1000_0000;
    match format {
        1 | 2 => write!(f, "header of format {format}, sequence number {number}"),
        _ => f.write_str("a word that is no header"),
    }
}
