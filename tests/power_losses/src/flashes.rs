// SPDX-License-Identifier: MIT OR Apache-2.0
//! The flashes that are tried, and runs over all of them on all processors.

use std::sync::atomic::{AtomicUsize, Ordering};
use std::sync::{Mutex, PoisonError};
use std::thread;

use wuzhikar_log::{MarkedUnits, MountError, NorFlash, PairedFlash, SlotFlash, SteadyFlash, UnitFlash, Unmounted};

use crate::chip::{Again, Cells, Chip, STEADY, WAVERING};
use crate::doubtful::Doubtful;
use crate::power::Power;
use crate::runner::{Broken, Stage, Tally, life};
use crate::subjects::Subject;

/// Where page 0 starts, in erase units.
const BEFORE: usize = 1;

/// An adapter over a chip that is played, and what is fixed about it.
pub trait Adapter: NorFlash + Sized {
    /// The chip.
    type Chip;

    /// One of so many operations is torn though the power stays on, or none.
    const FAULTS: [Option<usize>; 3] = [None, Some(32), Some(1000)];

    /// Below one of these is the number of operations before a loss of power: most come soon, some so late that a compaction comes to
    /// its end.
    const SOON: [usize; 4] = [4, 30, 200, 800];

    /// An erased chip that has room for `pages` pages.
    fn blank(pages: usize, cells: Cells, power: Power, seed: u64) -> Self::Chip;

    /// The adapter over a chip that a loss of power has stopped; the chip and the reason, where the start did not come to its end.
    fn start(chip: Self::Chip, pages: usize) -> Result<Self, (Self::Chip, MountError)>;

    /// The chip as it is.
    fn stop(self) -> Self::Chip;

    /// A session on the plain flash that these pages were before, if they may have been one; the chip behind its loss of power.
    fn after_plain<S: Subject>(
        chip: Self::Chip,
        _pages: usize,
        _subject: &mut S,
        _stage: &mut Stage,
    ) -> Result<Self::Chip, Broken> {
        Ok(chip)
    }
}

/// Slots on a flash without error correction.
pub type Plain<const READ: usize, const WRITE: usize, const ERASE: usize> = SlotFlash<Chip<READ, WRITE, ERASE>>;

/// Slots on a flash without error correction whose cells waver.
pub type Steady<const READ: usize, const WRITE: usize, const ERASE: usize> = SteadyFlash<MarkedUnits<Chip<READ, WRITE, ERASE>>>;

/// Pairs of units on a flash with error correction.
pub type Paired<const WRITE: usize, const ERASE: usize> = PairedFlash<UnitFlash<Chip<1, WRITE, ERASE>>>;

impl<const READ: usize, const WRITE: usize, const ERASE: usize> Adapter for Plain<READ, WRITE, ERASE> {
    type Chip = Chip<READ, WRITE, ERASE>;

    fn blank(pages: usize, cells: Cells, power: Power, seed: u64) -> Self::Chip {
        let page = Self::page_bytes().expect("a geometry that serves");
        Chip::plain(BEFORE * ERASE + pages * page as usize, cells, power, seed)
    }

    fn start(chip: Self::Chip, pages: usize) -> Result<Self, (Self::Chip, MountError)> {
        Ok(SlotFlash::new(chip, (BEFORE * ERASE) as u32, pages).expect("a geometry that serves"))
    }

    fn stop(self) -> Self::Chip {
        self.into_driver()
    }
}

impl<const READ: usize, const WRITE: usize, const ERASE: usize> Adapter for Steady<READ, WRITE, ERASE> {
    type Chip = Chip<READ, WRITE, ERASE>;

    /// With the last one many operations fail 8 times in a row.
    const FAULTS: [Option<usize>; 3] = [None, Some(32), Some(2)];

    fn blank(pages: usize, cells: Cells, power: Power, seed: u64) -> Self::Chip {
        let bytes = MarkedUnits::<Self::Chip>::bytes(pages).expect("a geometry that serves");
        Chip::plain(BEFORE * ERASE + bytes as usize, cells, power, seed).again(Again::SameBits)
    }

    fn start(chip: Self::Chip, pages: usize) -> Result<Self, (Self::Chip, MountError)> {
        let units = MarkedUnits::new(chip, (BEFORE * ERASE) as u32, pages).expect("a geometry that serves");
        SteadyFlash::take_over(units).map_err(|Unmounted { flash, why }| (flash.into_driver(), why))
    }

    fn stop(self) -> Self::Chip {
        self.into_flash().into_driver()
    }

    fn after_plain<S: Subject>(
        chip: Self::Chip,
        pages: usize,
        subject: &mut S,
        stage: &mut Stage,
    ) -> Result<Self::Chip, Broken> {
        let plain = SlotFlash::new(chip.into_plain(), (BEFORE * ERASE) as u32, pages).expect("a geometry that serves");
        Ok(subject.session(plain, stage)?.into_driver().with_cells(WAVERING).again(Again::SameBits))
    }
}

impl<const WRITE: usize, const ERASE: usize> Adapter for Paired<WRITE, ERASE> {
    type Chip = Chip<1, WRITE, ERASE>;

    fn blank(pages: usize, cells: Cells, power: Power, seed: u64) -> Self::Chip {
        let page = UnitFlash::<Self::Chip>::page_bytes().expect("a geometry that serves");
        Chip::corrected(BEFORE * ERASE + pages * page as usize, cells, power, seed)
    }

    fn start(chip: Self::Chip, pages: usize) -> Result<Self, (Self::Chip, MountError)> {
        let units = UnitFlash::new(chip, (BEFORE * ERASE) as u32, pages).expect("a geometry that serves");
        Ok(PairedFlash::mount(units))
    }

    fn stop(self) -> Self::Chip {
        self.into_flash().into_driver()
    }
}

/// A flash: what it is called, and a life of this seed and this many power losses on it.
pub struct Flash {
    pub name: &'static str,
    pub life: fn(u64, u64) -> Result<Tally, Broken>,
}

/// A life on a steady flash.
fn steady<S: Subject, A: Adapter>(seed: u64, cuts: u64) -> Result<Tally, Broken> {
    life::<S, A>(seed, cuts, STEADY)
}

/// A life on a flash whose cells waver.
fn wavering<S: Subject, A: Adapter>(seed: u64, cuts: u64) -> Result<Tally, Broken> {
    life::<S, A>(seed, cuts, WAVERING)
}

/// A life on a flash whose cells waver, or whose erase programs first, or both.
fn doubtful<S: Subject>(seed: u64, cuts: u64) -> Result<Tally, Broken> {
    let cells = [WAVERING, WAVERING, Cells { program_first: false, ..WAVERING }, Cells { waver: false, ..WAVERING }];
    life::<S, SteadyFlash<Doubtful>>(seed, cuts, cells[seed as usize % cells.len()])
}

/// Flashes of a read, a write and an erase unit without error correction, then those of a write and an erase unit with it, and such
/// as waver.
macro_rules! flashes {
    ($($read:literal $write:literal $erase:literal;)* corrected: $($units:literal $page:literal;)*
        waver: $($a:literal $b:literal $c:literal;)*) => {
        [
            $(Flash {
                name: concat!("write unit ", $write, ", erase unit ", $erase),
                life: steady::<S, Plain<$read, $write, $erase>>,
            },)*
            $(Flash {
                name: concat!("write unit ", $units, " with error correction, erase unit ", $page),
                life: steady::<S, Paired<$units, $page>>,
            },)*
            $(Flash {
                name: concat!("write unit ", $b, ", erase unit ", $c, ", cells that waver"),
                life: wavering::<S, Steady<$a, $b, $c>>,
            },)*
        ]
    };
}

/// All flashes that this subject is tried on.
pub fn flashes<S: Subject>() -> [Flash; 18] {
    flashes! {
        1 1 4096;
        1 2 1024;
        4 4 4096;
        1 8 128;
        1 8 2048;
        8 8 4096;
        1 16 8192;
        1 32 8192;
        32 32 131072;
        1 256 4096;
        corrected:
        8 2048;
        8 4096;
        16 8192;
        32 8192;
        32 131072;
        waver:
        1 1 4096;
        4 4 1024;
        1 8 128;
    }
}

/// How many power losses one life has: as many lives as there are share the work.
const A_LIFE: u64 = 500;

/// How many power losses a short life has.
const A_SHORT_LIFE: u64 = 12;

/// Runs lives of at least `cuts` power losses over all flashes, as many on each, and returns the report.
pub fn long_lives<S: Subject>(cuts: u64) -> Result<String, String> {
    let flashes = flashes::<S>();
    let lives = cuts.div_ceil(A_LIFE * flashes.len() as u64).max(1);
    report::<S>(&flashes, &run_lives(&flashes, lives, A_LIFE.min(cuts))?)
}

/// Runs so many short lives on a flash in memory whose cells waver, and returns the report.
pub fn short_lives<S: Subject>(lives: u64) -> Result<String, String> {
    let flashes = [Flash { name: "slots and marks in memory, cells that waver", life: doubtful::<S> }];
    report::<S>(&flashes, &run_lives(&flashes, lives, A_SHORT_LIFE)?)
}

/// Runs so many lives on each flash, of so many power losses each. An error is the first thing that is broken, with its flash and seed.
fn run_lives(flashes: &[Flash], lives: u64, cuts: u64) -> Result<Vec<Tally>, String> {
    let jobs = lives as usize * flashes.len();
    let next = AtomicUsize::new(0);
    let answers = Mutex::new(vec![None; jobs]);
    thread::scope(|scope| {
        for _ in 0..thread::available_parallelism().map_or(1, usize::from) {
            scope.spawn(|| {
                loop {
                    let job = next.fetch_add(1, Ordering::Relaxed);
                    let Some(flash) = flashes.get(job / lives as usize) else { break };
                    let answer = (flash.life)(job as u64, cuts);
                    answers.lock().unwrap_or_else(PoisonError::into_inner)[job] = Some(answer);
                }
            });
        }
    });
    let answers = answers.into_inner().unwrap_or_else(PoisonError::into_inner);
    let mut tallies = vec![Tally::default(); flashes.len()];
    for (job, answer) in answers.into_iter().enumerate() {
        let place = job / lives as usize;
        match answer {
            Some(Ok(tally)) => tallies[place].add(tally),
            Some(Err(broken)) => return Err(format!("{}, seed {job}: {broken}", flashes[place].name)),
            None => return Err(format!("{}, seed {job}: the life ended without an answer", flashes[place].name)),
        }
    }
    Ok(tallies)
}

/// A line for each flash, and what came of all. Each kind of event has to have come.
fn report<S: Subject>(flashes: &[Flash], tallies: &[Tally]) -> Result<String, String> {
    let mut lines = String::new();
    let mut all = Tally::default();
    for (flash, tally) in flashes.iter().zip(tallies) {
        lines += &format!("{} on {}: {tally}\n", S::NAME, flash.name);
        all.add(*tally);
    }
    if all.stored < all.cuts || [all.cut_erases, all.faults, all.failed].contains(&0) {
        return Err(format!("{}: some kind of event never came: {all}", S::NAME));
    }
    Ok(lines + &format!("{} on {} flashes: {all}; 0 lost, 0 torn in two\n", S::NAME, flashes.len()))
}
