//! What starts and calls do, also where the power is lost inside them; and what is refused.

use crate::mend_pages;
use crate::parts::flash_model::{FlashFault, NorFlash, PAGE_SLOTS, SLOT_BYTES};
use crate::parts::steady_flash::marks::{BLANK, LAST_NUMBER, OPEN, Place, ZEROS, about, claim, claim_bytes, done};
use crate::parts::steady_flash::moving::LAST_WRITTEN;
use crate::parts::steady_flash::steady::NO_SLOT;
use crate::parts::steady_flash::{MarkedFlash, MountError, SteadyFlash, Unmounted};
use std::cell::Cell;
use std::vec;
use std::vec::Vec;

type Bytes = [u8; SLOT_BYTES];

/// A call of a flash.
type Call = fn(&mut SteadyFlash<Pages>) -> Result<(), FlashFault>;

/// Three pages in memory. An operation that is cut does half of its work, and nothing follows.
#[derive(Clone, Debug)]
struct Pages {
    slots: Vec<Bytes>,
    marks: Vec<Bytes>,
    triples: usize,
    /// How many operations are whole before the power goes.
    left: u64,
    operations: u64,
    /// A mark, or a slot, that reports faults.
    bad_mark: Option<(usize, usize)>,
    bad_slot: Option<usize>,
    given_up: bool,
    /// How many reads of marks succeed.
    readable: Cell<u32>,
}

impl Pages {
    fn blank() -> Pages {
        Pages {
            slots: vec![BLANK; 3 * PAGE_SLOTS],
            marks: vec![BLANK; 3 * 25],
            triples: 8,
            left: u64::MAX,
            operations: 0,
            bad_mark: None,
            bad_slot: None,
            given_up: false,
            readable: Cell::new(u32::MAX),
        }
    }

    fn with_power(mut self, left: u64) -> Pages {
        (self.left, self.operations) = (left, 0);
        self
    }

    /// Whether an operation is whole; else whether it is torn.
    fn is_whole(&mut self) -> Result<(), bool> {
        self.operations += 1;
        let left = self.left;
        self.left = left.saturating_sub(u64::from(left < u64::MAX));
        if left > 1 { Ok(()) } else { Err(left == 1) }
    }

    fn clear(&mut self, of_marks: bool, at: usize, bytes: Bytes, is_bad: bool) -> Result<(), FlashFault> {
        let fate = self.is_whole();
        let mask = match fate {
            Ok(()) if !is_bad => 0xFF,
            Err(false) => return Err(FlashFault),
            _ => 0x0F,
        };
        let slot = if of_marks { &mut self.marks[at] } else { &mut self.slots[at] };
        slot.iter_mut().zip(bytes).for_each(|(cell, byte)| *cell &= byte | !mask);
        if mask == 0xFF { Ok(()) } else { Err(FlashFault) }
    }

    fn set(&mut self, of_marks: bool, page: usize) -> Result<(), FlashFault> {
        let fate = self.is_whole();
        let all = if of_marks { &mut self.marks } else { &mut self.slots };
        let count = all.len() / 3;
        match fate {
            Ok(()) => all[page * count..][..count].fill(BLANK),
            Err(true) => all[page * count..][..count / 2].fill(BLANK),
            Err(false) => {}
        }
        fate.map_err(|_| FlashFault)
    }
}

impl MarkedFlash for Pages {
    fn pages(&self) -> usize {
        self.slots.len() / PAGE_SLOTS
    }

    fn triples(&self) -> usize {
        self.triples
    }

    fn read_slot(&self, page: usize, slot: usize) -> Bytes {
        self.slots[page * PAGE_SLOTS + slot]
    }

    fn read_mark(&self, page: usize, mark: usize) -> Bytes {
        if self.is_unreadable() {
            return BLANK;
        }
        self.readable.set(self.readable.get() - 1);
        self.marks[page * 25 + mark]
    }

    fn program_slot(&mut self, page: usize, slot: usize, bytes: Bytes) -> Result<(), FlashFault> {
        self.clear(false, page * PAGE_SLOTS + slot, bytes, self.bad_slot == Some(page * PAGE_SLOTS + slot))
    }

    fn program_mark(&mut self, page: usize, mark: usize, bytes: Bytes) -> Result<(), FlashFault> {
        self.clear(true, page * 25 + mark, bytes, self.bad_mark == Some((page, mark)))
    }

    fn erase_slots(&mut self, page: usize) -> Result<(), FlashFault> {
        self.set(false, page)
    }

    fn erase_marks(&mut self, page: usize) -> Result<(), FlashFault> {
        self.set(true, page)
    }

    fn is_unreadable(&self) -> bool {
        self.readable.get() == 0
    }

    fn give_up(&mut self) {
        self.given_up = true;
    }
}

fn word(number: u8) -> Bytes {
    [number, 0, 0, 0, !number, 255, 255, 255]
}

fn formatted() -> SteadyFlash<Pages> {
    SteadyFlash::format(Pages::blank()).expect("formatted")
}

/// What each slot of the log's two pages reads as.
fn image(flash: &SteadyFlash<Pages>) -> Vec<Bytes> {
    (0..2).flat_map(|page| (0..PAGE_SLOTS).map(move |slot| flash.read_slot(page, slot))).collect()
}

fn why(mounted: Result<SteadyFlash<Pages>, Unmounted<Pages>>) -> (MountError, u64) {
    let Unmounted { flash, why } = mounted.expect_err("refused");
    (why, flash.operations)
}

#[test]
fn what_is_no_steady_flash_is_named_and_left_as_it_is() {
    assert_eq!(why(SteadyFlash::mount(Pages::blank())), (MountError::Unformatted, 0));
    // The words of a log are no marks, whatever their bytes.
    let mut other = Pages::blank();
    other.marks = (0..75).map(word).collect();
    other.slots[..256]
        .iter_mut()
        .zip(0..=255)
        .for_each(|(slot, byte)| *slot = [byte, byte, byte, byte, !byte, !byte, !byte, !byte]);
    assert_eq!(why(SteadyFlash::mount(other)), (MountError::Unformatted, 0));
    // A mark of another place, or of a log of other pages, wherever it stands.
    let claims = [(2, 1), (3, 0), (7, 2)].map(|(pages, at)| claim_bytes(Place { pages, at }, 1, 5));
    for (bytes, at) in claims.into_iter().flat_map(|bytes| [0, claim(0), done(3), 24].map(|at| (bytes, at))) {
        let mut moved = Pages::blank();
        moved.marks[at] = bytes;
        assert_eq!(why(SteadyFlash::take_over(moved)), (MountError::OtherGeometry, 0));
        let mut moved = Pages::blank();
        moved.slots[2 * PAGE_SLOTS + at] = bytes;
        assert_eq!(why(SteadyFlash::take_over(moved.clone())), (MountError::OtherGeometry, 0));
        assert!(SteadyFlash::format(moved).is_ok());
    }
    let mut moved = formatted().into_flash().with_power(u64::MAX);
    moved.marks[2 * 25 + claim(7)] = claims[1];
    assert_eq!(why(SteadyFlash::mount(moved)), (MountError::OtherGeometry, 0));
    let mut small = Pages::blank();
    small.slots.truncate(2 * PAGE_SLOTS);
    assert_eq!(why(SteadyFlash::mount(small.clone())), (MountError::PageCount, 0));
    assert_eq!(why(SteadyFlash::format(small)), (MountError::PageCount, 0));
    let few = Pages { triples: 7, ..Pages::blank() };
    assert_eq!(why(SteadyFlash::take_over(few)), (MountError::Triples, 0));
    let mut damaged = formatted().into_flash().with_power(u64::MAX);
    damaged.marks[..25].fill(BLANK);
    assert_eq!(why(SteadyFlash::mount(damaged.clone())), (MountError::Damaged, 0));
    assert_eq!(why(SteadyFlash::take_over(damaged.clone())), (MountError::Damaged, 0));
    assert!(image(&SteadyFlash::format(damaged).expect("formatted")).iter().all(|slot| *slot == BLANK));
}

#[test]
fn a_read_that_fails_is_no_blank_flash() {
    // 24 claims are read, and then all marks, which would tell a damaged flash.
    for readable in 0..99 {
        let flash = Pages { readable: Cell::new(readable), ..Pages::blank() };
        assert_eq!(why(SteadyFlash::take_over(flash)), (MountError::Unreadable, 0), "{readable}");
    }
}

#[test]
fn a_start_behind_a_session_that_wrote_nothing_reads_alone() {
    let flash = SteadyFlash::mount(formatted().into_flash().with_power(u64::MAX)).expect("mounted").into_flash();
    assert_eq!(flash.operations, 0);
    let mut steady = SteadyFlash::mount(flash).expect("mounted");
    assert_eq!(steady.program_slot(1, 5, word(3)), Ok(()));
    // `open`, and the slot; behind it two erases, a copy and three marks.
    let flash = steady.into_flash();
    assert_eq!(flash.operations, 2);
    let steady = SteadyFlash::mount(flash.with_power(u64::MAX)).expect("mounted");
    assert_eq!((steady.flash().operations, steady.read_slot(1, 5)), (6, word(3)));
    assert_eq!(SteadyFlash::mount(steady.into_flash().with_power(u64::MAX)).expect("mounted").flash().operations, 0);
}

#[test]
fn calls_do_what_a_flash_does() {
    let mut steady = formatted();
    assert_eq!(steady.pages(), 2);
    assert_eq!(steady.program_slot(0, 0, word(1)), Ok(()));
    assert_eq!(steady.program_slot(0, 511, word(2)), Ok(()));
    assert_eq!(steady.program_slot(1, 7, word(3)), Ok(()));
    // A second program moves the page; one that clears nothing does nothing.
    assert_eq!(steady.program_slot(0, 0, [0xFF, 0, 0, 0, 0, 255, 255, 255]), Ok(()));
    let before = steady.flash().operations;
    assert_eq!(steady.program_slot(0, 0, BLANK), Ok(()));
    assert_eq!(steady.flash().operations, before);
    assert_eq!((steady.read_slot(0, 0), steady.read_slot(0, 511)), ([1, 0, 0, 0, 0, 255, 255, 255], word(2)));
    assert_eq!(steady.erase_page(1), Ok(()));
    assert_eq!(steady.program_slot(1, 7, word(4)), Ok(()));
    let steady = SteadyFlash::mount(steady.into_flash()).expect("mounted");
    assert_eq!((steady.read_slot(0, 511), steady.read_slot(1, 7)), (word(2), word(4)));
    // There are no other pages and slots.
    let mut steady = steady;
    assert_eq!((steady.read_slot(2, 0), steady.read_slot(0, 512)), (NO_SLOT, NO_SLOT));
    assert_eq!((steady.program_slot(2, 0, word(1)), steady.erase_page(2)), (Err(FlashFault), Err(FlashFault)));
    assert_eq!(steady.program_slot(0, 512, word(1)), Err(FlashFault));
}

#[test]
fn each_operation_of_a_call_may_be_cut() {
    let mut before = formatted();
    before.program_slot(0, 0, word(1)).expect("programmed");
    before.program_slot(1, 1, word(2)).expect("programmed");
    // Unsound: a bit is clear in both halves.
    before.program_slot(1, 0, [1, 0, 0, 0, 0xFC, 255, 255, 255]).expect("programmed");
    let old = image(&before);
    let calls: [Call; 4] = [
        |flash| flash.program_slot(0, 9, word(5)),
        |flash| flash.program_slot(1, 1, [0; 8]),
        |flash| flash.erase_page(0),
        |flash| mend_pages(flash).map(|mended| assert_eq!(mended, 1)),
    ];
    for call in calls {
        let mut whole = SteadyFlash::mount(before.flash().clone()).expect("mounted");
        call(&mut whole).expect("done");
        let new = image(&whole);
        let mut left = 0;
        loop {
            left += 1;
            let mut flash = SteadyFlash::mount(before.flash().clone()).expect("mounted").into_flash().with_power(left);
            if let Ok(mut steady) = SteadyFlash::mount(flash.clone()) {
                let answer = call(&mut steady);
                flash = steady.into_flash();
                if answer.is_ok() && flash.left > 0 {
                    break;
                }
            }
            let found = image(&SteadyFlash::mount(flash.with_power(u64::MAX)).expect("mounted"));
            let torn = |slot: usize| found[slot] == old[slot] || found[slot] == new[slot] || slot == 9;
            assert!(found == old || found == new || (0..2 * PAGE_SLOTS).all(torn), "{left}");
        }
        assert!(left > 1);
    }
}

#[test]
fn the_pages_of_a_plain_log_are_taken_over_whatever_is_cut() {
    let mut plain = Pages::blank();
    for slot in 0..40 {
        plain.slots[slot] = word(slot as u8);
    }
    plain.slots[PAGE_SLOTS] = word(77);
    // Something else stands behind them.
    plain.slots[2 * PAGE_SLOTS..].fill([0x5A; 8]);
    plain.marks.fill([0xA5; 8]);
    let old: Vec<Bytes> = plain.slots[..2 * PAGE_SLOTS].to_vec();
    for left in 1.. {
        // Cut once, cut again in the next start, and made again.
        let cut = match SteadyFlash::take_over(plain.clone().with_power(left)) {
            Ok(steady) => {
                assert_eq!(image(&steady), old);
                assert!(left > 50);
                break;
            }
            Err(unmounted) => unmounted.flash,
        };
        for again in [1, 3, 9, 20, 60] {
            let twice = match SteadyFlash::take_over(cut.clone().with_power(again)) {
                Ok(steady) => steady.into_flash(),
                Err(unmounted) => unmounted.flash,
            };
            assert_eq!(image(&SteadyFlash::take_over(twice.with_power(u64::MAX)).expect("mounted")), old, "{left} {again}");
        }
    }
}

#[test]
fn a_format_erases_all_and_may_be_cut() {
    let mut full = formatted();
    full.program_slot(0, 3, word(9)).expect("programmed");
    for before in [Pages { slots: vec![[0; 8]; 3 * PAGE_SLOTS], ..Pages::blank() }, full.into_flash()] {
        for left in 1.. {
            match SteadyFlash::format(before.clone().with_power(left)) {
                Ok(steady) => {
                    assert!(left > 10 && image(&steady).iter().all(|slot| *slot == BLANK));
                    break;
                }
                Err(Unmounted { flash, .. }) => {
                    let steady = SteadyFlash::format(flash.with_power(u64::MAX)).expect("formatted");
                    assert!(image(&steady).iter().all(|slot| *slot == BLANK));
                }
            }
        }
    }
}

#[test]
fn a_slot_that_fails_is_settled_before_it_is_told() {
    let mut flash = formatted().into_flash();
    flash.bad_slot = Some(4);
    let mut steady = SteadyFlash::mount(flash).expect("mounted");
    assert_eq!(steady.program_slot(0, 4, word(1)), Err(FlashFault));
    let read = steady.read_slot(0, 4);
    assert_ne!(read, BLANK);
    assert!(!steady.is_lost());
    // It moved to a page where it does not fail, and was settled: the next start reads alone.
    let steady = SteadyFlash::mount(steady.into_flash().with_power(u64::MAX)).expect("mounted");
    assert_eq!((steady.read_slot(0, 4), steady.flash().operations), (read, 0));
}

#[test]
fn a_claim_that_fails_eight_times_gives_the_flash_up() {
    let mut flash = formatted().into_flash();
    flash.bad_mark = Some((2, claim(0)));
    let mut steady = SteadyFlash::mount(flash.with_power(u64::MAX)).expect("mounted");
    assert_eq!(steady.erase_page(0), Err(FlashFault));
    assert!(steady.is_lost() && steady.flash().given_up);
    // Two erases, `about` and eight programs of the claim; and nothing more.
    assert_eq!(steady.flash().operations, 11);
    assert_eq!((steady.erase_page(1), steady.program_slot(0, 0, word(1))), (Err(FlashFault), Err(FlashFault)));
    assert_eq!(steady.flash().operations, 11);
    // A mark that fails before the claim is an ordinary fault.
    let mut flash = formatted().into_flash();
    flash.bad_mark = Some((0, about(0)));
    let mut steady = SteadyFlash::mount(flash).expect("mounted");
    assert_eq!((steady.erase_page(0), steady.erase_page(1), steady.is_lost()), (Err(FlashFault), Ok(()), false));
}

#[test]
fn a_start_says_why_it_can_not_go_on() {
    let mut flash = formatted().into_flash();
    flash.bad_mark = Some((2, claim(0)));
    flash.marks[OPEN] = ZEROS;
    assert_eq!(why(SteadyFlash::mount(flash)).0, MountError::Fault);
    // Each start is cut behind the next claim.
    let mut flash = formatted().into_flash();
    flash.marks[done(0)] = BLANK;
    for index in 1..8 {
        flash = SteadyFlash::mount(flash.with_power(4)).expect_err("cut").flash;
        assert_ne!(flash.marks[claim(index)], BLANK);
    }
    assert_eq!(why(SteadyFlash::mount(flash.with_power(u64::MAX))), (MountError::OutOfMarks, 0));
    let mut flash = formatted().into_flash();
    flash.marks[claim(0)] = claim_bytes(Place { pages: 2, at: 0 }, 0, LAST_NUMBER);
    flash.marks[OPEN] = ZEROS;
    assert_eq!(why(SteadyFlash::mount(flash)).0, MountError::Worn);
}

#[test]
fn the_last_numbers_are_left_to_starts() {
    let with_number = |number| {
        let mut flash = formatted().into_flash();
        flash.marks[claim(0)] = claim_bytes(Place { pages: 2, at: 0 }, 0, number);
        SteadyFlash::mount(flash.with_power(u64::MAX)).expect("mounted")
    };
    let mut steady = with_number(LAST_WRITTEN);
    assert_eq!(steady.program_slot(0, 1, word(1)), Ok(()));
    let mut steady = SteadyFlash::mount(steady.into_flash().with_power(u64::MAX)).expect("mounted");
    // Behind it nothing is written on this page, and each start reads alone.
    assert_eq!(
        (steady.program_slot(0, 2, word(1)), steady.erase_page(0), steady.is_lost()),
        (Err(FlashFault), Err(FlashFault), false)
    );
    assert_eq!((steady.flash().operations, steady.read_slot(0, 1)), (6, word(1)));
    assert_eq!(why(SteadyFlash::format(steady.into_flash().with_power(u64::MAX))), (MountError::Worn, 0));
    let mut steady = with_number(LAST_WRITTEN);
    assert_eq!(steady.erase_page(0), Ok(()));
    let mut steady = SteadyFlash::mount(steady.into_flash()).expect("mounted");
    assert_eq!((steady.program_slot(0, 1, word(1)), steady.program_slot(1, 1, word(1))), (Err(FlashFault), Ok(())));
}
