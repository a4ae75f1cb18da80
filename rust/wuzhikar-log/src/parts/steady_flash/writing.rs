// Exported from crates/steady_flash/src/writing.rt by bin/export-rust. Edit that file instead.
//! How a slot of the log is programmed: where it stands, or by a move of its page.

use crate::parts::steady_flash::MarkedFlash;
use crate::parts::steady_flash::layout::{Doubt, Layout};
use crate::parts::steady_flash::marks::{BLANK, OPEN, ZEROS};
use crate::parts::steady_flash::moving::{Changed, LAST_WRITTEN, Stop, TRIES, move_page, program_mark, program_slot};
use crate::parts::flash_model::{PAGE_SLOTS, SLOT_BYTES};

/// What a program that failed leaves.
#[derive(Clone, Copy, Debug)]
pub enum Failed {
    /// A slot that reads as torn, with no cell in doubt.
    Torn,
    /// Each slot as it was; another page may count, so the flash was given up.
    Lost,
    /// A slot in doubt, so the flash was given up.
    InDoubt,
}

/// Clears the bits of a slot that are clear in `bytes`.
fn program<F: MarkedFlash>(
    flash: &mut F,
    layout: &mut Layout,
    page: usize,
    slot: usize,
    bytes: [u8; SLOT_BYTES],
) -> Result<(), Failed> {
    let held = flash.read_slot(layout.held[page].page as usize, slot);
    let after = both(held, bytes);
    if after == held {
        return Ok(());
    }
    if held != BLANK {
        return change(flash, layout, page, slot, after);
    }
    fill(flash, layout, page, slot, bytes)
}

/// Programs a slot, and keeps which one is in doubt.
pub fn write<F: MarkedFlash>(
    flash: &mut F,
    layout: &mut Layout,
    in_doubt: &mut Option<Doubt>,
    page: usize,
    slot: usize,
    bytes: [u8; SLOT_BYTES],
) -> Result<(), Failed> {
    match program(flash, layout, page, slot, bytes) {
        Ok(()) => Ok(()),
        Err(Failed::Torn) => Err(Failed::Torn),
        Err(Failed::Lost) => Err(Failed::Lost),
        Err(Failed::InDoubt) => {
            *in_doubt = Some(Doubt { page, slot });
            Err(Failed::InDoubt)
        }
    }
}

/// Moves a page with other bytes in one slot.
fn change<F: MarkedFlash>(
    flash: &mut F,
    layout: &mut Layout,
    page: usize,
    slot: usize,
    bytes: [u8; SLOT_BYTES],
) -> Result<(), Failed> {
    let change = Changed { slot, bytes };
    match move_page(flash, layout, page, Some(change)) {
        Ok(()) => Ok(()),
        Err(Stop::InDoubt) => {
            flash.give_up();
            Err(Failed::Lost)
        }
        Err(_) => Err(Failed::Torn),
    }
}

/// Programs a slot that is blank where it stands.
fn fill<F: MarkedFlash>(
    flash: &mut F,
    layout: &mut Layout,
    page: usize,
    slot: usize,
    bytes: [u8; SLOT_BYTES],
) -> Result<(), Failed> {
    if open(flash, layout, page).is_err() {
        return Err(Failed::Torn);
    }
    let at = layout.held[page].page as usize;
    match program_slot(flash, at, slot, bytes) {
        Ok(()) => Ok(()),
        Err(_) => Err(settle(flash, layout, page, slot)),
    }
}

/// Says that slots of a page are programmed from here on: its next start settles it.
fn open<F: MarkedFlash>(flash: &mut F, layout: &mut Layout, page: usize) -> Result<(), Stop> {
    if layout.held[page].is_opened {
        return Ok(());
    }
    program_mark(flash, layout.held[page].page as usize, OPEN, ZEROS)?;
    layout.held[page].is_opened = true;
    Ok(())
}

/// Settles a slot that could not be programmed, as it reads once, before the fault is told.
fn settle<F: MarkedFlash>(flash: &mut F, layout: &mut Layout, page: usize, slot: usize) -> Failed {
    let read = flash.read_slot(layout.held[page].page as usize, slot);
    let change = Changed { slot, bytes: read };
    for _ in 0..TRIES {
        match move_page(flash, layout, page, Some(change)) {
            Ok(()) => return Failed::Torn,
            Err(Stop::Fault) => {}
            Err(_) => {
                flash.give_up();
                return Failed::InDoubt;
            }
        }
    }
    flash.give_up();
    Failed::InDoubt
}

/// The bits that are set in both.
fn both(held: [u8; SLOT_BYTES], bytes: [u8; SLOT_BYTES]) -> [u8; SLOT_BYTES] {
    let mut after = held;
    for k in 0..SLOT_BYTES {
        after[k] &= bytes[k];
    }
    after
}
