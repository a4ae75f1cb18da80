// SPDX-License-Identifier: MIT OR Apache-2.0
//! The pages of a flash themselves: slots that are programmed, some twice, and pages that are erased, as `NorFlash` says.

use wuzhikar_log::{NorFlash, mend_pages};

use super::Subject;
use crate::random::Random;
use crate::runner::{Broken, Stage};

/// The slots that are looked at.
const SLOTS: [usize; 4] = [0, 1, 300, 511];

type Image = Vec<[u64; SLOTS.len()]>;

/// A change of the flash.
#[derive(Clone, Copy, Debug)]
enum Change {
    Nothing,
    Program {
        page: usize,
        at: usize,
        word: u64,
    },
    Erase {
        page: usize,
    },
    /// Pages whose first slot is unsound are erased.
    Mend,
}

impl Change {
    /// What it does to a page whose first slot holds this.
    fn on(self, page: usize, first: u64) -> Change {
        match self {
            Change::Mend if (first | first >> 32) as u32 == u32::MAX => Change::Nothing,
            Change::Mend => Change::Erase { page },
            change => change,
        }
    }

    /// What a slot may hold behind the change, where it was torn.
    fn allows(self, page: usize, at: usize, before: u64, now: u64) -> bool {
        match self {
            Change::Program { page: of, at: slot, word } if (of, slot) == (page, at) => {
                before & word & !now == 0 && now & !before == 0
            }
            Change::Erase { page: of } if of == page => before & !now == 0,
            _ => before == now,
        }
    }

    fn make<F: NorFlash>(self, flash: &mut F) -> bool {
        match self {
            Change::Nothing => true,
            Change::Program { page, at, word } => flash.program_slot(page, SLOTS[at], word.to_le_bytes()).is_ok(),
            Change::Erase { page } => flash.erase_page(page).is_ok(),
            Change::Mend => mend_pages(flash).is_ok(),
        }
    }
}

/// What the slots hold, and the change that the latest loss of power came into.
pub struct Pages {
    image: Image,
    under_way: Change,
}

fn image<F: NorFlash>(flash: &F) -> Image {
    (0..flash.pages()).map(|page| SLOTS.map(|slot| u64::from_le_bytes(flash.read_slot(page, slot)))).collect()
}

impl Pages {
    /// What is found is what was there, with the change torn that was under way.
    fn finds<F: NorFlash>(&mut self, flash: &F, change: Change) -> Result<(), Broken> {
        let found = image(flash);
        if self.image.is_empty() {
            self.image = vec![[u64::MAX; SLOTS.len()]; found.len()];
        }
        for (page, (slots, before)) in found.iter().zip(&self.image).enumerate() {
            let change = change.on(page, before[0]);
            for (at, (&now, &before)) in slots.iter().zip(before).enumerate() {
                if !change.allows(page, at, before, now) {
                    return Err(Broken::Lost(format!("page {page}, slot {at}: {before:x} became {now:x} by {change:?}")));
                }
            }
        }
        self.image = found;
        Ok(())
    }

    fn draw(&self, random: &mut Random) -> Change {
        let (page, at) = (random.below(self.image.len()), random.below(SLOTS.len()));
        let word = random.next() >> 33;
        let word = word | !word << 32;
        match random.below(16) {
            0..5 => Change::Erase { page },
            5 => Change::Program { page, at, word },
            6 => Change::Mend,
            _ if self.image[page][at] == u64::MAX => Change::Program { page, at, word },
            _ => Change::Nothing,
        }
    }
}

impl Subject for Pages {
    const NAME: &'static str = "the pages";

    fn new(_random: &mut Random) -> Pages {
        Pages { image: Image::new(), under_way: Change::Nothing }
    }

    fn session<F: NorFlash>(&mut self, mut flash: F, stage: &mut Stage) -> Result<F, Broken> {
        let caught = std::mem::replace(&mut self.under_way, Change::Nothing);
        self.finds(&flash, caught)?;
        while !stage.power.is_off() {
            if image(&flash) != self.image {
                return Err(Broken::Wrong("a slot reads otherwise".to_string()));
            }
            let change = self.draw(&mut stage.random);
            let faults = stage.power.faults();
            let is_made = change.make(&mut flash);
            if stage.power.is_off() {
                self.under_way = change;
            } else if is_made {
                stage.tally.stored += 1;
                for (page, slots) in self.image.iter_mut().enumerate() {
                    match change.on(page, slots[0]) {
                        Change::Program { page: of, at, word } if of == page => slots[at] &= word,
                        Change::Erase { page: of } if of == page => *slots = [u64::MAX; SLOTS.len()],
                        _ => {}
                    }
                }
            } else if stage.power.faults() > faults {
                stage.tally.failed += 1;
                self.finds(&flash, change)?;
            } else {
                return Err(Broken::Refused(format!("{change:?}")));
            }
        }
        Ok(flash)
    }
}
