// SPDX-License-Identifier: MIT OR Apache-2.0
//! Whether what is kept in flash outlives each loss of power: a log, settings on one page and on all, and a keyboard, each with a
//! ledger of what was confirmed, on flashes of many geometries, plain and with error correction.
//!
//! `power_losses [SUBJECT..] [LOSSES]`: `log`, `settings`, `paged` and `keyboard`, or all of them, with so many losses each (100000).
//! `power_losses lives [LIVES]`: so many short lives, of each subject and of pages alone, on a flash in memory whose torn cells
//! waver.
#![deny(unsafe_code)] // (but for the calls of C)

mod chip;
mod code;
mod doubtful;
mod flashes;
#[path = "../../../rust/tests/src/other.rs"]
mod other;
mod power;
mod random;
mod runner;
#[cfg(test)]
mod stm32g0_played;
mod subjects;
#[cfg(test)]
mod wrong;

use std::process::ExitCode;

use flashes::{long_lives, short_lives};
use other::Other;
use subjects::{InC, InRust, Keyboard, Log, Paged, Pages, Settings};
use wuzhikar::Standard;

const LOSSES: u64 = 100_000;

/// Runs the lives of the subject of this name: of a keyboard half with another layout, of settings also by the calls of C.
fn lives_of(name: &str, losses: u64) -> Result<String, String> {
    match name {
        "log" => long_lives::<Log>(losses),
        "settings" => Ok(long_lives::<Settings<InRust>>(losses)? + &long_lives::<Settings<InC>>(losses.div_ceil(4))?),
        "paged" => Ok(long_lives::<Paged<InRust>>(losses)? + &long_lives::<Paged<InC>>(losses.div_ceil(4))?),
        "keyboard" => {
            let half = losses.div_ceil(2);
            Ok(long_lives::<Keyboard<Standard>>(half)? + &long_lives::<Keyboard<Other>>(half)?)
        }
        "lives" => {
            let each = losses.div_ceil(5);
            let kept =
                short_lives::<Log>(each)? + &short_lives::<Settings<InRust>>(each)? + &short_lives::<Paged<InRust>>(each)?;
            Ok(short_lives::<Pages>(each)? + &kept + &short_lives::<Keyboard<Standard>>(each)?)
        }
        _ => Err(format!("{name:?} is no subject: log, settings, paged, keyboard, lives")),
    }
}

/// Returns the subjects and the number that the command line names.
fn asked(mut words: Vec<String>) -> (Vec<String>, u64) {
    let losses = words.last().and_then(|word| word.parse().ok()).filter(|&losses| losses > 0);
    if losses.is_some() {
        words.pop();
    }
    if words.is_empty() {
        words = ["log", "settings", "paged", "keyboard"].map(String::from).to_vec();
    }
    (words, losses.unwrap_or(LOSSES))
}

fn main() -> ExitCode {
    let (names, losses) = asked(std::env::args().skip(1).collect());
    for name in names {
        match lives_of(&name, losses) {
            Ok(report) => print!("{report}"),
            Err(broken) => {
                println!("power_losses: {broken}");
                return ExitCode::FAILURE;
            }
        }
    }
    ExitCode::SUCCESS
}

#[cfg(test)]
mod tests {
    use super::*;
    use crate::chip::{Again, Cells, WAVERING};
    use crate::doubtful::{Doubtful, is_word};
    use crate::flashes::{Adapter, Paired, Plain, Steady};
    use crate::power::Power;
    use crate::runner::life;
    use crate::subjects::Subject;
    use wuzhikar_log::{MarkedFlash, SteadyFlash};

    /// Whether one of 100 lives on such cells is broken.
    fn breaks<S: Subject, A: Adapter>(cells: Cells) -> bool {
        (0..100).any(|seed| life::<S, A>(seed, 400, cells).is_err())
    }

    /// What no adapter covers yet, and what the guarantee excludes.
    #[test]
    fn cells_that_waver_and_erases_that_program_first_lose_something() {
        for cells in [Cells { waver: true, program_first: false }, Cells { waver: false, program_first: true }] {
            assert!(breaks::<Log, Plain<1, 4, 4096>>(cells), "{cells:?}");
            assert!(breaks::<Settings<InRust>, Plain<1, 4, 4096>>(cells), "{cells:?}");
            assert!(breaks::<Settings<InC>, Plain<1, 4, 4096>>(cells), "{cells:?}");
            assert!(breaks::<Keyboard<Standard>, Plain<1, 4, 4096>>(cells), "{cells:?}");
        }
        let cells = Cells { waver: true, program_first: false };
        assert!(breaks::<Keyboard<Standard>, Paired<8, 2048>>(cells), "{cells:?}");
    }

    /// Random sessions of a keyboard lose something in most lives on a plain flash, and nothing on a steady one.
    #[test]
    fn sessions_that_lose_a_key_on_a_plain_flash_keep_it_on_a_steady_one() {
        let cells = Cells { waver: true, program_first: false };
        let lost = (0..40).filter(|&seed| life::<Keyboard<Standard>, Plain<1, 4, 4096>>(seed, 100, cells).is_err()).count();
        assert!(lost > 25, "{lost}");
        for seed in 0..40 {
            life::<Keyboard<Standard>, Steady<1, 4, 4096>>(seed, 100, cells)
                .unwrap_or_else(|broken| panic!("{seed}: {broken}"));
        }
    }

    /// A mark that is torn, and an erase that is torn behind it, leave no other word: a bit that stayed set beside one that was
    /// cleared would be one.
    #[test]
    fn a_torn_erase_of_a_played_chip_forges_no_mark() {
        let (power, word) = (Power::default(), 0xDB7F_FFF9_1240_0003_u64);
        power.on(u64::MAX);
        power.set_faults(Some(1));
        for seed in 0..20_000 {
            let cells = Cells { waver: false, program_first: true };
            let mut chip = Doubtful::erased(2, cells, Again::Any, power.clone(), seed);
            assert!(
                (0..25).all(|mark| chip.program_mark(0, mark, word.to_le_bytes()).is_err()) && chip.erase_marks(0).is_err()
            );
            let mut read = (0..25).map(|mark| u64::from_le_bytes(chip.read_mark(0, mark)));
            assert!(read.all(|read| read == word || !is_word(read)), "{seed}");
        }
    }

    /// In the first life a claim that an earlier start began to clear is programmed again.
    #[test]
    fn short_lives_on_cells_that_waver_lose_nothing() {
        assert!(life::<Pages, SteadyFlash<Doubtful>>(85529, 12, WAVERING).is_ok());
        assert!(matches!(lives_of("lives", 4000), Ok(told) if told.contains("0 lost")));
    }

    #[test]
    fn words_name_subjects_and_a_number() {
        let asked_of = |words: &[&str]| asked(words.iter().map(|word| word.to_string()).collect());
        assert_eq!(asked_of(&["log", "7"]), (vec!["log".to_string()], 7));
        assert_eq!(asked_of(&["7"]).0.len(), 4);
        assert_eq!(asked_of(&[]).1, LOSSES);
        assert!(lives_of("locks", 1).is_err());
        assert!(matches!(lives_of("keyboard", 500), Ok(told) if told.contains("0 lost")));
    }
}
