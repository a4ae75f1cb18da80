// SPDX-License-Identifier: MIT OR Apache-2.0
//! The adapter of a flash whose cells waver, as it is and without each of its rules (build.rs).

use wuzhikar_log::{MountError, SLOT_BYTES};

use crate::chip::{Again, Cells, STEADY, WAVERING};
use crate::doubtful::Doubtful;
use crate::flashes::Adapter;
use crate::power::Power;
use crate::random::Random;
use crate::runner::{Broken, Stage, life};
use crate::subjects::{Pages, Subject};

include!(concat!(env!("OUT_DIR"), "/steady.rs"));

/// An adapter that can format.
trait Formats: Adapter<Chip = Doubtful> {
    fn format(chip: Doubtful) -> Result<Self, Doubtful>;
}

/// An adapter for each module, and a test that says whether lives find it.
macro_rules! adapters {
    ($($rule:ident $is_found:ident $again:ident;)*) => {
        $(
            impl Adapter for $rule::SteadyFlash<Doubtful> {
                type Chip = Doubtful;
                const FAULTS: [Option<usize>; 3] = [None, Some(32), Some(2)];
                const SOON: [usize; 4] = [4, 8, 16, 200];

                fn blank(pages: usize, cells: Cells, power: Power, seed: u64) -> Doubtful {
                    Doubtful::erased(pages, cells, Again::$again, power, seed)
                }

                fn start(chip: Doubtful, _pages: usize) -> Result<Self, (Doubtful, MountError)> {
                    $rule::SteadyFlash::take_over(chip).map_err(|$rule::Unmounted { flash, why }| (flash, reason(&why.to_string())))
                }

                fn stop(self) -> Doubtful {
                    self.into_flash()
                }

                fn after_plain<S: Subject>(chip: Doubtful, _: usize, subject: &mut S, stage: &mut Stage) -> Result<Doubtful, Broken> {
                    chip.after_plain(subject, stage)
                }
            }

            impl Formats for $rule::SteadyFlash<Doubtful> {
                fn format(chip: Doubtful) -> Result<Self, Doubtful> {
                    $rule::SteadyFlash::format(chip).map_err(|unmounted| unmounted.flash)
                }
            }

            #[test]
            fn $rule() {
                let found = first_broken::<$rule::SteadyFlash<Doubtful>>();
                println!("{}: {found:?}", stringify!($rule));
                assert_eq!(found.is_some(), $is_found, "{found:?}");
            }
        )*
    };
}

/// Returns the reason that has this text.
fn reason(text: &str) -> MountError {
    let all = [MountError::OutOfMarks, MountError::Fault, MountError::Unformatted];
    all.into_iter().find(|why| why.to_string() == text).unwrap_or(MountError::Damaged)
}

/// What is found broken: in lives, in calls that are cut, or on marks of another geometry.
fn first_broken<A: Formats>() -> Option<String> {
    let found = |seed| life::<Pages, A>(seed, 12, WAVERING).err().map(|broken| format!("life {seed}: {broken}"));
    let call = |seed| is_lost_in::<A>(seed, &drawn(seed)).then(|| format!("calls {seed}"));
    let told = |seed| HISTORIES.iter().position(|calls| is_lost_in::<A>(seed, calls)).map(|at| format!("history {at}, {seed}"));
    let moved = is_taken_though_moved::<A>().then(|| "moved".to_string());
    let used_up = || has_no_marks_left::<A>().then(|| "no marks left".to_string());
    let calls = || (0..400).find_map(told).or_else(|| (0..2000).find_map(call));
    moved.or_else(used_up).or_else(calls).or_else(|| (0..20_000).find_map(found))
}

const PAGES: usize = 2;
const WORD: [u8; SLOT_BYTES] = [1, 0, 0, 0, 254, 255, 255, 255];

/// What happens to a flash, and how many operations are whole before the power is lost: a start, a format, or a word that is written.
#[derive(Clone, Copy, Debug, PartialEq)]
enum Call {
    Start(u64),
    Format(u64),
    Write,
}

/// Pages are made, and again with a loss in the first erase, and once more; an erase is lost in its claim, and the start behind it.
const HISTORIES: [&[Call]; 2] = [
    &[Call::Start(6), Call::Start(0), Call::Start(8), Call::Start(u64::MAX)],
    &[Call::Write, Call::Start(u64::MAX), Call::Format(3), Call::Start(1), Call::Start(u64::MAX), Call::Start(u64::MAX)],
];

fn drawn(seed: u64) -> Vec<Call> {
    let mut random = Random::from_seed(seed);
    let mut calls: Vec<Call> = if seed % 2 == 0 { Vec::new() } else { vec![Call::Write] };
    for _ in 0..6 {
        let whole = random.below(20) as u64;
        calls.push(if seed % 2 == 1 && random.below(2) == 0 { Call::Format(whole) } else { Call::Start(whole) });
    }
    calls.push(Call::Start(u64::MAX));
    calls
}

/// Whether a start is refused though its power stays on, or finds another word than the start before.
fn is_lost_in<A: Formats>(seed: u64, calls: &[Call]) -> bool {
    let power = Power::default();
    let mut chip = A::blank(PAGES, WAVERING, power.clone(), seed);
    let mut kept = None;
    for call in calls {
        let (Call::Start(whole) | Call::Format(whole)) = *call else {
            chip = with_a_word::<A>(chip, &power);
            continue;
        };
        power.on(whole);
        let started =
            if *call == Call::Format(whole) { A::format(chip) } else { A::start(chip, PAGES).map_err(|(cut, _)| cut) };
        chip = match started {
            Ok(flash) => {
                let now = flash.read_slot(0, 0);
                if *call == Call::Start(whole) && kept.replace(now).is_some_and(|word| word != now) {
                    return true;
                }
                flash.stop()
            }
            Err(_) if whole == u64::MAX => return true,
            Err(cut) => cut,
        };
        if *call == Call::Format(whole) {
            kept = None;
        }
    }
    false
}

/// The flash with a word on its first page, whose power stays on.
fn with_a_word<A: Formats>(chip: Doubtful, power: &Power) -> Doubtful {
    power.on(u64::MAX);
    let Ok(mut flash) = A::start(chip, PAGES) else { panic!("a start that is not cut") };
    flash.program_slot(0, 0, WORD).expect("programmed");
    flash.stop()
}

/// Whether a flash is taken whose pages stand one page on.
fn is_taken_though_moved<A: Formats>() -> bool {
    let power = Power::default();
    let chip = with_a_word::<A>(A::blank(PAGES, STEADY, power.clone(), 1), &power);
    A::start(chip.moved(), PAGES).is_ok()
}

/// Whether power losses before the claim of an erase, each behind a whole start, use the marks up.
fn has_no_marks_left<A: Formats>() -> bool {
    let power = Power::default();
    let mut left = Some(with_a_word::<A>(A::blank(PAGES, STEADY, power.clone(), 1), &power));
    for _ in 0..20 {
        power.on(u64::MAX);
        left = left.and_then(|chip| A::start(chip, PAGES).ok()).map(|mut flash| {
            power.on(3);
            let _ = flash.erase_page(1);
            flash.stop()
        });
    }
    left.is_none()
}

const IS_FOUND: bool = true;
const IS_RIGHT: bool = false;

// But for one rule the flash takes each program again: a wrong adapter is found by what it loses.
adapters! {
    nothing IS_RIGHT Any;
    settles_in_place IS_FOUND Any;
    bumps_page_by_page IS_FOUND Any;
    wipes_before_it_bumps IS_FOUND Any;
    bumps_by_one IS_FOUND Any;
    trusts_a_blank_read IS_FOUND Any;
    leaves_out_open IS_FOUND Any;
    leaves_out_about IS_FOUND Any;
    leaves_out_done IS_FOUND Any;
    programs_a_claim_once IS_FOUND Any;
    tells_a_fault_unsettled IS_FOUND Any;
    tells_a_fault_in_doubt IS_FOUND Any;
    bumps_forward IS_FOUND Any;
    bumps_without_about IS_FOUND Any;
    switches_without_about IS_FOUND Any;
    renews_no_marks IS_FOUND Any;
    programs_in_place IS_FOUND SameBits;
    makes_over_claims IS_FOUND Any;
    takes_over_unsettled IS_FOUND Any;
    formats_at_once IS_FOUND Any;
    takes_other_marks IS_FOUND Any;
}
