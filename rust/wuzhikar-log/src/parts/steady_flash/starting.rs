// Exported from crates/steady_flash/src/starting.rt by bin/export-rust. Edit that file instead.
//! A start: it finds the pages, and settles what a power loss left in doubt.

use crate::parts::steady_flash::layout::{Held, Layout, MOST_PAGES, NOWHERE};
use crate::parts::steady_flash::making::why_not_found;
use crate::parts::steady_flash::marks::{BLANK, OPEN, Word, about, claim, done, done_bytes, read_word};
use crate::parts::steady_flash::moving::{Stop, bump, move_page};
use crate::parts::steady_flash::{MarkedFlash, MountError};
use crate::parts::flash_model::SLOT_BYTES;

/// The least triples of marks of a page.
const LEAST_TRIPLES: usize = 8;

/// The most triples of marks of a page.
const MOST_TRIPLES: usize = 80;

/// A start.
pub fn start<F: MarkedFlash>(flash: &mut F) -> Result<Layout, MountError> {
    let count = flash.pages();
    if count < 3 || count > MOST_PAGES + 1 {
        return Err(MountError::PageCount);
    }
    let triples = flash.triples();
    if triples < LEAST_TRIPLES || triples > MOST_TRIPLES {
        return Err(MountError::Triples);
    }
    match settle_all(flash, count - 1) {
        Ok(layout) => Ok(layout),
        Err(Stop::Named(why)) => Err(why),
        Err(_) => Err(MountError::Fault),
    }
}

/// All pages are bumped before any is settled: an erase in between could leave a claim that a start takes for the greatest.
fn settle_all<F: MarkedFlash>(flash: &mut F, pages: usize) -> Result<Layout, Stop> {
    let mut layout = find(flash, pages)?;
    bump_all(flash, &mut layout)?;
    settle_opened(flash, &mut layout)?;
    Ok(layout)
}

fn bump_all<F: MarkedFlash>(flash: &mut F, layout: &mut Layout) -> Result<(), Stop> {
    let pages = layout.pages;
    for behind in 0..pages {
        bump_where_begun(flash, layout, pages - 1 - behind)?;
    }
    Ok(())
}

fn settle_opened<F: MarkedFlash>(flash: &mut F, layout: &mut Layout) -> Result<(), Stop> {
    let pages = layout.pages;
    for page in 0..pages {
        settle_where_opened(flash, layout, page)?;
    }
    Ok(())
}

fn bump_where_begun<F: MarkedFlash>(
    flash: &mut F,
    layout: &mut Layout,
    page: usize,
) -> Result<(), Stop> {
    let held = layout.held[page];
    let at = held.page as usize;
    let index = held.index as u16;
    let is_done = flash.read_mark(at, done(index)) == done_bytes(layout.place(at));
    let is_about = flash.read_mark(at, about(index)) != BLANK;
    if is_done && !is_about {
        Ok(())
    } else {
        bump(flash, layout, page)
    }
}

/// A page in which slots were programmed, or with few marks left, is moved as it reads now.
fn settle_where_opened<F: MarkedFlash>(
    flash: &mut F,
    layout: &mut Layout,
    page: usize,
) -> Result<(), Stop> {
    let held = layout.held[page];
    let opened = flash.read_mark(held.page as usize, OPEN);
    if opened == BLANK && (held.index as usize) < flash.triples() / 2 {
        return Ok(());
    }
    move_page(flash, layout, page, None)?;
    Ok(())
}

/// Reads each claim once, and finds the greatest one of each page.
fn find<F: MarkedFlash>(flash: &F, pages: usize) -> Result<Layout, Stop> {
    let mut layout = Layout {
        pages,
        held: [NOWHERE; MOST_PAGES],
        spare: pages,
    };
    find_claims(flash, &mut layout)?;
    layout.spare = spare_of(&layout);
    if flash.is_unreadable() {
        return Err(Stop::Named(MountError::Unreadable));
    }
    if !is_whole(&layout) {
        return Err(Stop::Named(why_not_found(flash, pages)));
    }
    Ok(layout)
}

/// Reads each claim of the flash once, and keeps the greatest one of each page.
fn find_claims<F: MarkedFlash>(flash: &F, layout: &mut Layout) -> Result<(), Stop> {
    for at in 0..flash.pages() {
        find_on(flash, layout, at)?;
    }
    Ok(())
}

fn find_on<F: MarkedFlash>(flash: &F, layout: &mut Layout, at: usize) -> Result<(), Stop> {
    for index in 0..flash.triples() {
        let read = flash.read_mark(at, claim(index as u16));
        take_claim(layout, at, index, read)?;
    }
    Ok(())
}

/// Keeps a claim where it is greater than that before, and refuses one of another geometry.
fn take_claim(
    layout: &mut Layout,
    at: usize,
    index: usize,
    read: [u8; SLOT_BYTES],
) -> Result<(), Stop> {
    match read_word(read) {
        None => Ok(()),
        Some(word) => {
            if word.place != layout.place(at) {
                return Err(Stop::Named(MountError::OtherGeometry));
            }
            keep_greater(layout, index, word);
            Ok(())
        }
    }
}

/// Keeps a claim where it is greater than that before.
fn keep_greater(layout: &mut Layout, index: usize, word: Word) {
    let page = word.page;
    if page >= layout.pages || layout.held[page].number >= word.number {
        return;
    }
    layout.held[page] = Held {
        page: word.place.at as u8,
        index: index as u8,
        number: word.number,
        is_opened: false,
    };
}

/// The page of the flash that holds none.
fn spare_of(layout: &Layout) -> usize {
    for page in 0..layout.pages {
        if !is_held(layout, page) {
            return page;
        }
    }
    layout.pages
}

/// Whether a page of the flash holds one of the log.
fn is_held(layout: &Layout, at: usize) -> bool {
    for page in 0..layout.pages {
        let held = layout.held[page];
        if held.number > 0 && held.page as usize == at {
            return true;
        }
    }
    false
}

/// Whether each page is found, each on a page of its own, and one is left.
fn is_whole(layout: &Layout) -> bool {
    for page in 0..layout.pages {
        if layout.held[page].number == 0 || is_doubled(layout, page) {
            return false;
        }
    }
    !is_held(layout, layout.spare)
}

/// Whether an earlier page is found on the same page of the flash.
fn is_doubled(layout: &Layout, page: usize) -> bool {
    let at = layout.held[page].page;
    for other in 0..page {
        if layout.held[other].page == at {
            return true;
        }
    }
    false
}
