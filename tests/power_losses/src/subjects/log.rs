// SPDX-License-Identifier: MIT OR Apache-2.0
//! A log of words: appended one by one, and rewritten with those that are still wanted.

use wuzhikar_log::{FlashLog, LogRefusal, NorFlash, WriteError};

use super::Subject;
use crate::random::Random;
use crate::runner::{Broken, Stage};

/// The words that were stored, and those that the latest loss of power may have left in their place.
#[derive(Debug, Default)]
pub struct Log {
    stored: Vec<u32>,
    under_way: Option<Vec<u32>>,
}

impl Log {
    fn starts<F: NorFlash>(&mut self, log: &FlashLog<F>) -> Result<(), Broken> {
        let found: Vec<u32> = log.words().collect();
        match self.under_way.take() {
            Some(changed) if found == changed => self.stored = changed,
            _ if found == self.stored => {}
            changed => return Err(Broken::Lost(format!("{found:x?}, and {:x?} or {changed:x?} was stored", self.stored))),
        }
        Ok(())
    }

    /// One word more, or a compaction with some of them.
    fn change<F: NorFlash>(&mut self, log: &mut FlashLog<F>, stage: &mut Stage) -> Result<(), Broken> {
        let (random, faults) = (&mut stage.random, stage.power.faults());
        // A word below 80000000h, which each adapter takes.
        let word = (random.next() >> 33) as u32;
        let modulus = [1, 3, 50][random.below(3)];
        let keeps = move |kept: u32| kept % modulus == 0;
        let pushes = random.below(40) != 0;
        let mut changed = self.stored.clone();
        let mut answer = if pushes { log.push(word) } else { Err(LogRefusal::NoRoom.into()) };
        if answer == Err(WriteError::Refused(LogRefusal::NoRoom)) {
            changed.retain(|&kept| keeps(kept));
            answer = log.rewrite_with(keeps);
        } else {
            changed.push(word);
        }
        if stage.power.is_off() {
            self.under_way = Some(changed);
            return Ok(());
        }
        match answer {
            Ok(()) => {
                stage.tally.stored += 1;
                self.stored = changed;
            }
            Err(WriteError::Fault) if stage.power.faults() > faults => stage.tally.failed += 1,
            Err(error) => return Err(Broken::Refused(error.to_string())),
        }
        if log.words().eq(self.stored.iter().copied()) { Ok(()) } else { Err(Broken::Wrong("the words".to_string())) }
    }
}

impl Subject for Log {
    const NAME: &'static str = "the log";

    fn new(_random: &mut Random) -> Log {
        Log::default()
    }

    fn session<F: NorFlash>(&mut self, flash: F, stage: &mut Stage) -> Result<F, Broken> {
        let mut log = FlashLog::mount(flash).expect("2 to 8 pages");
        self.starts(&log)?;
        while !stage.power.is_off() {
            self.change(&mut log, stage)?;
        }
        Ok(log.into_flash())
    }
}
