// SPDX-License-Identifier: MIT OR Apache-2.0
//! A life of something that is kept in flash: a session after each loss of power.

use std::fmt;

use wuzhikar_log::MountError;

use crate::chip::Cells;
use crate::flashes::Adapter;
use crate::power::Power;
use crate::random::Random;
use crate::subjects::Subject;

/// What a life has seen.
#[derive(Clone, Copy, Debug, Default, PartialEq, Eq)]
pub struct Tally {
    /// Losses of power, each inside an operation.
    pub cuts: u64,
    /// Those of them that came into an erase.
    pub cut_erases: u64,
    /// Operations that were torn while the power stayed on.
    pub faults: u64,
    /// Changes that were confirmed.
    pub stored: u64,
    /// Changes that were refused because of a fault.
    pub failed: u64,
    /// Losses of power, or faults, inside a start that did not come to its end.
    pub cut_starts: u64,
    /// Sessions that were given up, since the flash failed again and again; and lives that ended so, or had no marks left.
    pub given_up: u64,
    pub ended: u64,
}

impl Tally {
    pub fn add(&mut self, other: Tally) {
        self.cuts += other.cuts;
        self.cut_erases += other.cut_erases;
        self.faults += other.faults;
        self.stored += other.stored;
        self.failed += other.failed;
        self.cut_starts += other.cut_starts;
        self.given_up += other.given_up;
        self.ended += other.ended;
    }
}

impl fmt::Display for Tally {
    fn fmt(&self, f: &mut fmt::Formatter<'_>) -> fmt::Result {
        let Tally { cuts, cut_erases, faults, stored, failed, cut_starts, given_up, ended } = self;
        write!(f, "{cuts} power losses, {cut_erases} of them in erases, {cut_starts} in starts; {faults} faults; ")?;
        write!(f, "{stored} changes stored, {failed} refused because of a fault")?;
        write!(f, "; {given_up} sessions and {ended} lives given up")
    }
}

/// What should not have been.
#[derive(Clone, Debug, PartialEq, Eq)]
pub enum Broken {
    /// What a start finds is neither what was confirmed nor that with the change that the loss of power came into.
    Lost(String),
    /// What is there between two losses of power is not what was confirmed.
    Wrong(String),
    /// A change was refused though no operation had failed.
    Refused(String),
    /// The adapter asked something of its driver that it should not.
    Misuse(&'static str),
}

impl fmt::Display for Broken {
    fn fmt(&self, f: &mut fmt::Formatter<'_>) -> fmt::Result {
        match self {
            Broken::Lost(what) => write!(f, "lost: {what}"),
            Broken::Wrong(what) => write!(f, "wrong: {what}"),
            Broken::Refused(what) => write!(f, "refused without a fault: {what}"),
            Broken::Misuse(how) => write!(f, "the driver was asked for {how}"),
        }
    }
}

/// What a session is made of: random numbers, the power, and the tally.
pub struct Stage {
    pub random: Random,
    pub power: Power,
    pub tally: Tally,
}

impl Stage {
    /// Switches the power on, until some number of operations below one of these.
    fn power_on(&mut self, soon: [usize; 4]) {
        let bound = soon[self.random.below(4)];
        self.power.on(self.random.below(bound) as u64);
    }
}

/// Whether a start may be refused for ever, behind so many in a row that were cut.
fn ends(why: MountError, cut_starts: u32, faults: u64) -> bool {
    match why {
        MountError::OutOfMarks => faults > 0 || cut_starts >= 4,
        MountError::Fault => faults > 0,
        _ => false,
    }
}

/// A life with `cuts` losses of power, and a start behind the last one; or what it finds broken.
pub fn life<S: Subject, A: Adapter>(seed: u64, cuts: u64, cells: Cells) -> Result<Tally, Broken> {
    let mut random = Random::from_seed(seed);
    let (power, faults) = (Power::default(), A::FAULTS[random.below(3)]);
    let pages = 2 + random.below(7);
    let mut chip = A::blank(pages, cells, power.clone(), random.next());
    let mut subject = S::new(&mut random);
    let mut stage = Stage { random, power, tally: Tally::default() };
    if stage.random.below(2) == 0 {
        stage.power_on(A::SOON);
        chip = A::after_plain(chip, pages, &mut subject, &mut stage)?;
    }
    stage.power.set_faults(faults);
    let mut in_a_row = 0;
    for _ in 0..=cuts {
        stage.power_on(A::SOON);
        chip = match A::start(chip, pages) {
            Ok(flash) => {
                in_a_row = 0;
                subject.session(flash, &mut stage)?.stop()
            }
            Err((cut, _)) if stage.power.is_off() => {
                in_a_row += 1;
                stage.tally.cut_starts += 1;
                cut
            }
            Err((_, why)) if ends(why, in_a_row, stage.power.faults()) => {
                stage.tally.ended += 1;
                break;
            }
            Err((_, why)) => return Err(Broken::Lost(why.to_string())),
        };
        stage.tally.cuts += 1;
        if let Some(how) = stage.power.misuse() {
            return Err(Broken::Misuse(how));
        }
    }
    let Stage { power, tally, .. } = stage;
    Ok(Tally { cut_erases: power.cut_erases(), faults: power.faults(), given_up: power.given_up(), ..tally })
}
