// Exported from crates/steady_flash/src/making.rt by bin/export-rust. Edit that file instead.
//! The pages of a flash on which none are found.

use crate::parts::steady_flash::layout::Layout;
use crate::parts::steady_flash::marks::{OPEN, Place, ZEROS, claim, claim_bytes, done, done_bytes, read_word};
use crate::parts::steady_flash::moving::{LAST_WRITTEN, Stop, erase_marks, erase_page, erase_slots, program_mark};
use crate::parts::steady_flash::starting::start;
use crate::parts::steady_flash::{MarkedFlash, MountError};
use crate::parts::flash_model::PAGE_SLOTS;

/// Starts, and where nothing was formatted makes pages of what the slots hold.
pub fn take_over<F: MarkedFlash>(flash: &mut F) -> Result<Layout, MountError> {
    match start(flash) {
        Err(MountError::Unformatted) => make(flash, true),
        started => started,
    }
}

/// Erases all pages, whatever they hold, and starts.
pub fn format<F: MarkedFlash>(flash: &mut F) -> Result<Layout, MountError> {
    match start(flash) {
        Ok(layout) => erase_each(flash, layout),
        Err(MountError::PageCount) => Err(MountError::PageCount),
        Err(MountError::Triples) => Err(MountError::Triples),
        Err(MountError::Unreadable) => Err(MountError::Unreadable),
        Err(MountError::Fault) => Err(MountError::Fault),
        Err(_) => make(flash, false),
    }
}

/// Erases each page of the log.
fn erase_each<F: MarkedFlash>(flash: &mut F, layout: Layout) -> Result<Layout, MountError> {
    let mut layout = layout;
    if is_worn(&layout) {
        return Err(MountError::Worn);
    }
    for page in 0..layout.pages {
        match erase_page(flash, &mut layout, page) {
            Ok(()) => {}
            Err(Stop::InDoubt) => {
                flash.give_up();
                return Err(MountError::Fault);
            }
            Err(_) => return Err(MountError::Fault),
        }
    }
    Ok(layout)
}

/// Whether a page has come to the numbers that are left to starts.
fn is_worn(layout: &Layout) -> bool {
    for page in 0..layout.pages {
        if layout.held[page].number > LAST_WRITTEN {
            return true;
        }
    }
    false
}

/// Makes the pages anew, where the flash was not found: blank, or with what their slots hold.
fn make<F: MarkedFlash>(flash: &mut F, keeps: bool) -> Result<Layout, MountError> {
    match make_pages(flash, keeps) {
        Ok(()) => start(flash),
        Err(_) => Err(MountError::Fault),
    }
}

fn make_pages<F: MarkedFlash>(flash: &mut F, keeps: bool) -> Result<(), Stop> {
    let pages = flash.pages() - 1;
    clear_claims(flash, pages - 1)?;
    erase_all_marks(flash)?;
    begin_pages(flash, pages, keeps)?;
    claim_pages(flash, pages)?;
    finish_pages(flash, pages)
}

/// The claim that an earlier call, which was cut, made last: without it no start finds what the erases tear.
fn clear_claims<F: MarkedFlash>(flash: &mut F, at: usize) -> Result<(), Stop> {
    for index in 0..flash.triples() {
        program_mark(flash, at, claim(index as u16), ZEROS)?;
    }
    Ok(())
}

fn erase_all_marks<F: MarkedFlash>(flash: &mut F) -> Result<(), Stop> {
    for at in 0..flash.pages() {
        erase_marks(flash, at)?;
    }
    Ok(())
}

/// What the slots hold is settled by the start behind, or erased.
fn begin_pages<F: MarkedFlash>(flash: &mut F, pages: usize, keeps: bool) -> Result<(), Stop> {
    for at in 0..pages {
        begin_page(flash, at, keeps)?;
    }
    Ok(())
}

fn begin_page<F: MarkedFlash>(flash: &mut F, at: usize, keeps: bool) -> Result<(), Stop> {
    if keeps {
        program_mark(flash, at, OPEN, ZEROS)
    } else {
        erase_slots(flash, at)
    }
}

fn claim_pages<F: MarkedFlash>(flash: &mut F, pages: usize) -> Result<(), Stop> {
    for page in 0..pages {
        program_mark(
            flash,
            page,
            claim(0),
            claim_bytes(Place { pages, at: page }, page, 1),
        )?;
    }
    Ok(())
}

fn finish_pages<F: MarkedFlash>(flash: &mut F, pages: usize) -> Result<(), Stop> {
    for page in 0..pages {
        program_mark(flash, page, done(0), done_bytes(Place { pages, at: page }))?;
    }
    Ok(())
}

/// What a flash has of marks: those of another geometry, and those behind a whole claim.
#[derive(Clone, Copy, Debug)]
struct Marks {
    is_other: bool,
    is_done: bool,
}

/// Why not each page is found, by whatever reads as a mark: one of another geometry may stand where this one has a slot.
pub fn why_not_found<F: MarkedFlash>(flash: &F, pages: usize) -> MountError {
    let mut marks = Marks {
        is_other: false,
        is_done: false,
    };
    for at in 0..flash.pages() {
        look_at_marks(flash, Place { pages, at }, &mut marks);
        if has_word(flash, at) {
            marks.is_other = true;
        }
    }
    if flash.is_unreadable() {
        MountError::Unreadable
    } else if marks.is_other {
        MountError::OtherGeometry
    } else if marks.is_done {
        MountError::Damaged
    } else {
        MountError::Unformatted
    }
}

fn look_at_marks<F: MarkedFlash>(flash: &F, place: Place, marks: &mut Marks) {
    for mark in 0..claim(flash.triples() as u16) {
        if let Some(word) = read_word(flash.read_mark(place.at, mark)) {
            if word.place != place {
                marks.is_other = true;
            }
            if word.number == 0 {
                marks.is_done = true;
            }
        }
    }
}

/// Whether a slot of a page reads as a mark.
fn has_word<F: MarkedFlash>(flash: &F, at: usize) -> bool {
    for slot in 0..PAGE_SLOTS {
        if read_word(flash.read_slot(at, slot)).is_some() {
            return true;
        }
    }
    false
}
