// Exported from crates/steady_flash/src/moving.rt by bin/export-rust. Edit that file instead.
//! How a page moves: to the spare page, or to a greater number.

use crate::parts::steady_flash::layout::{Held, Layout};
use crate::parts::steady_flash::marks::{BLANK, LAST_NUMBER, OPEN, ZEROS, about, claim, claim_bytes, done, done_bytes};
use crate::parts::steady_flash::{MarkedFlash, MountError};
use crate::parts::flash_model::{FlashFault, PAGE_SLOTS, SLOT_BYTES};

/// How often in a row an operation is tried.
pub const TRIES: usize = 8;

/// The last number of a page that is written: those behind it are left to starts, so that none of them is refused.
pub const LAST_WRITTEN: u32 = LAST_NUMBER - 1024;

/// Why a step of a move ends.
#[derive(Clone, Copy, Debug)]
pub enum Stop {
    /// The flash failed, and which pages count is as before.
    Fault,
    /// The flash failed, and another page may count.
    InDoubt,
    /// What a start is refused for.
    Named(MountError),
}

/// A slot that is given other bytes than it reads as.
#[derive(Clone, Copy, Debug)]
pub struct Changed {
    pub slot: usize,
    pub bytes: [u8; SLOT_BYTES],
}

/// Programs a mark with the same bits until it is whole.
pub fn program_mark<F: MarkedFlash>(
    flash: &mut F,
    at: usize,
    mark: usize,
    bytes: [u8; SLOT_BYTES],
) -> Result<(), Stop> {
    for _tried in 0..TRIES {
        match flash.program_mark(at, mark, bytes) {
            Ok(()) => return Ok(()),
            Err(_) => {}
        }
    }
    Err(Stop::Fault)
}

/// Programs a slot with the same bits until it is whole.
pub fn program_slot<F: MarkedFlash>(
    flash: &mut F,
    at: usize,
    slot: usize,
    bytes: [u8; SLOT_BYTES],
) -> Result<(), Stop> {
    for _tried in 0..TRIES {
        match flash.program_slot(at, slot, bytes) {
            Ok(()) => return Ok(()),
            Err(_) => {}
        }
    }
    Err(Stop::Fault)
}

/// Erases the marks of a page until they are whole.
pub fn erase_marks<F: MarkedFlash>(flash: &mut F, at: usize) -> Result<(), Stop> {
    for _tried in 0..TRIES {
        match flash.erase_marks(at) {
            Ok(()) => return Ok(()),
            Err(_) => {}
        }
    }
    Err(Stop::Fault)
}

/// Erases the slots of a page until they are whole.
pub fn erase_slots<F: MarkedFlash>(flash: &mut F, at: usize) -> Result<(), Stop> {
    for _tried in 0..TRIES {
        match flash.erase_slots(at) {
            Ok(()) => return Ok(()),
            Err(_) => {}
        }
    }
    Err(Stop::Fault)
}

/// Erases the spare page, whatever it reads as.
pub fn prepare<F: MarkedFlash>(flash: &mut F, layout: &Layout) -> Result<(), Stop> {
    erase_marks(flash, layout.spare)?;
    erase_slots(flash, layout.spare)
}

/// Copies the slots of a page to the spare one, each as it reads once, but for the changed one.
fn copy<F: MarkedFlash>(
    flash: &mut F,
    from: usize,
    to: usize,
    changed: Option<Changed>,
) -> Result<(), Stop> {
    for slot in 0..PAGE_SLOTS {
        let bytes = copied(flash, from, slot, changed);
        if bytes != BLANK {
            program_slot(flash, to, slot, bytes)?;
        }
    }
    Ok(())
}

/// What a copied slot is programmed with.
fn copied<F: MarkedFlash>(
    flash: &F,
    from: usize,
    slot: usize,
    changed: Option<Changed>,
) -> [u8; SLOT_BYTES] {
    match changed {
        Some(change) if change.slot == slot => change.bytes,
        _ => flash.read_slot(from, slot),
    }
}

/// Claims the spare page for a page of the log, with the next number. Behind a fault a start may find the claim, or not.
fn claim_spare<F: MarkedFlash>(
    flash: &mut F,
    layout: &Layout,
    page: usize,
    number: u32,
) -> Result<(), Stop> {
    let to = layout.spare;
    match program_mark(
        flash,
        to,
        claim(0),
        claim_bytes(layout.place(to), page, number),
    ) {
        Ok(()) => Ok(()),
        Err(_) => Err(Stop::InDoubt),
    }
}

/// From the moment at which its claim is whole the spare page counts, and the one that did is spare.
pub fn switch<F: MarkedFlash>(flash: &mut F, layout: &mut Layout, page: usize) -> Result<(), Stop> {
    let old = layout.held[page];
    let to = layout.spare;
    if old.number + 1 > LAST_NUMBER {
        return Err(Stop::Named(MountError::Worn));
    }
    program_mark(flash, old.page as usize, about(old.index as u16), ZEROS)?;
    claim_spare(flash, layout, page, old.number + 1)?;
    layout.held[page] = Held {
        page: to as u8,
        index: 0,
        number: old.number + 1,
        is_opened: false,
    };
    layout.spare = old.page as usize;
    // A fault here is none: the next start bumps.
    let _done = flash.program_mark(to, done(0), done_bytes(layout.place(to)));
    Ok(())
}

/// Moves a page to the spare one, each slot as it reads once, but for the changed one.
pub fn move_page<F: MarkedFlash>(
    flash: &mut F,
    layout: &mut Layout,
    page: usize,
    changed: Option<Changed>,
) -> Result<(), Stop> {
    prepare(flash, layout)?;
    copy(
        flash,
        layout.held[page].page as usize,
        layout.spare,
        changed,
    )?;
    switch(flash, layout, page)
}

/// Moves an erased page to the spare one.
pub fn erase_page<F: MarkedFlash>(
    flash: &mut F,
    layout: &mut Layout,
    page: usize,
) -> Result<(), Stop> {
    prepare(flash, layout)?;
    switch(flash, layout, page)
}

/// The page that counts claims a number above each that another one may have begun to claim.
pub fn bump<F: MarkedFlash>(flash: &mut F, layout: &mut Layout, page: usize) -> Result<(), Stop> {
    let held = layout.held[page];
    if held.index as usize + 1 >= flash.triples() {
        return Err(Stop::Named(MountError::OutOfMarks));
    }
    if held.number + 2 > LAST_NUMBER {
        return Err(Stop::Named(MountError::Worn));
    }
    make_firm(flash, layout, page)?;
    outbid(flash, layout, page)
}

/// The claim that a page was found by is firm from here on, whatever it was, and the mark before a greater one is whole.
fn make_firm<F: MarkedFlash>(flash: &mut F, layout: &Layout, page: usize) -> Result<(), Stop> {
    let held = layout.held[page];
    let at = held.page as usize;
    program_mark(flash, at, about(held.index as u16), ZEROS)?;
    program_mark(
        flash,
        at,
        claim(held.index as u16),
        claim_bytes(layout.place(at), page, held.number),
    )
}

/// The page claims the number after the next one.
fn outbid<F: MarkedFlash>(flash: &mut F, layout: &mut Layout, page: usize) -> Result<(), Stop> {
    let held = layout.held[page];
    let at = held.page as usize;
    let next = Held {
        page: held.page,
        index: held.index + 1,
        number: held.number + 2,
        is_opened: false,
    };
    program_mark(
        flash,
        at,
        claim(next.index as u16),
        claim_bytes(layout.place(at), page, next.number),
    )?;
    layout.held[page] = next;
    program_mark(
        flash,
        at,
        done(next.index as u16),
        done_bytes(layout.place(at)),
    )
}
