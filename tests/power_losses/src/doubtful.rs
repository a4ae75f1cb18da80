// SPDX-License-Identifier: MIT OR Apache-2.0
//! Slots and marks that are played in memory without a driver: a million lives take minutes.

use std::cell::RefCell;

use wuzhikar_log::{FlashFault, MarkedFlash, MountError, NorFlash, PAGE_SLOTS, SLOT_BYTES, SteadyFlash, Unmounted};

use crate::chip::{Again, Cells};
use crate::flashes::Adapter;
use crate::power::{Fate, Operation, Power};
use crate::random::Random;
use crate::runner::{Broken, Stage};
use crate::subjects::Subject;

/// The marks of a page are so many times three, and one.
const TRIPLES: usize = 8;
const MARKS: usize = 1 + 3 * TRIPLES;

/// The cells of a slot or a mark: what each is, and whether it is in doubt; and what was programmed last since a whole erase.
#[derive(Clone, Copy, Debug)]
struct Unit {
    data: u64,
    doubt: u64,
    written: Option<u64>,
}

const ERASED: Unit = Unit { data: u64::MAX, doubt: 0, written: None };

/// A flash with slots and marks whose cells waver, and whose erase may program to 0 first.
#[derive(Debug)]
pub struct Doubtful {
    cells: Cells,
    again: Again,
    /// Whether a torn operation leaves all cells in doubt, and those of a unit read alike.
    extreme: bool,
    slots: Vec<Unit>,
    marks: Vec<Unit>,
    power: Power,
    random: RefCell<Random>,
}

impl Doubtful {
    /// An erased flash for a log of so many pages.
    pub fn erased(pages: usize, cells: Cells, again: Again, power: Power, seed: u64) -> Doubtful {
        let (slots, marks) = (vec![ERASED; (pages + 1) * PAGE_SLOTS], vec![ERASED; (pages + 1) * MARKS]);
        Doubtful { cells, again, extreme: seed % 2 == 0, slots, marks, power, random: RefCell::new(Random::from_seed(seed)) }
    }

    /// The same cells, each page one page on.
    #[cfg(test)]
    pub fn moved(mut self) -> Doubtful {
        self.slots.rotate_right(PAGE_SLOTS);
        self.marks.rotate_right(MARKS);
        self
    }

    /// The flash behind a session of a plain log, whose erases only set bits.
    pub fn after_plain<S: Subject>(self, subject: &mut S, stage: &mut Stage) -> Result<Doubtful, Broken> {
        let (cells, again) = (self.cells, self.again);
        let plain = Doubtful { cells: Cells { program_first: false, ..cells }, again: Again::Any, ..self };
        let Slots(chip) = subject.session(Slots(plain), stage)?;
        Ok(Doubtful { cells, again, ..chip })
    }

    fn read(&self, unit: Unit) -> [u8; SLOT_BYTES] {
        let mut data = unit.data;
        if self.cells.waver && unit.doubt != 0 {
            let random = &mut self.random.borrow_mut();
            data ^= unit.doubt & if self.extreme { [0, u64::MAX][random.below(2)] } else { reach(random) };
        }
        data.to_le_bytes()
    }

    fn program(&mut self, is_mark: bool, at: usize, bytes: [u8; SLOT_BYTES]) -> Result<(), FlashFault> {
        let word = u64::from_le_bytes(bytes);
        let random = self.random.get_mut();
        let unit = if is_mark { &mut self.marks[at] } else { &mut self.slots[at] };
        let takes = match self.again {
            Again::Never => unit.written.is_none(),
            Again::SameBits => unit.written.is_none_or(|written| written == word) || word == 0,
            Again::Any => true,
        };
        if !takes {
            self.power.misused("a program with other bits");
        }
        let fate = self.power.next(Operation::Write, random);
        let (mask, doubt) = match fate {
            Fate::Nothing => return Err(FlashFault),
            Fate::Whole => (u64::MAX, 0),
            Fate::Torn => torn(self.cells, self.extreme, random),
        };
        // Zeros over a word may be torn, and the word is programmed again.
        if word != 0 {
            unit.written = Some(word);
        }
        clear(unit, word, mask, doubt);
        if fate == Fate::Whole { Ok(()) } else { Err(FlashFault) }
    }

    fn erase(&mut self, is_mark: bool, page: usize) -> Result<(), FlashFault> {
        let count = if is_mark { MARKS } else { PAGE_SLOTS };
        let all = if is_mark { &mut self.marks } else { &mut self.slots };
        let units = &mut all[page * count..][..count];
        let random = self.random.get_mut();
        match self.power.next(Operation::Erase, random) {
            Fate::Nothing => return Err(FlashFault),
            Fate::Whole => {
                units.fill(ERASED);
                return Ok(());
            }
            Fate::Torn => {}
        }
        // Units of several erases: those before are whole.
        let whole = if random.below(4) == 0 { random.below(count) } else { 0 };
        units[..whole].fill(ERASED);
        let in_first = self.cells.program_first && random.below(2) == 0;
        for unit in &mut units[whole..] {
            let (before, (mask, doubt)) = (unit.data, torn(self.cells, self.extreme, random));
            if in_first {
                clear(unit, 0, mask, doubt);
            } else {
                if self.cells.program_first {
                    clear(unit, 0, u64::MAX, 0);
                }
                let changed = (!unit.data | unit.doubt) & mask;
                unit.data |= changed & !doubt;
                unit.doubt = unit.doubt & !changed | changed & doubt;
            }
            // No word comes from nowhere (`MarkedFlash`).
            if is_word(unit.data) && unit.data != before {
                *unit = Unit { data: 0, doubt: 0, ..*unit };
            }
        }
        Err(FlashFault)
    }
}

/// Whether these are a word beside its complement, which is turned by a bit.
pub fn is_word(bits: u64) -> bool {
    (bits >> 32) as u32 == (!(bits as u32)).rotate_left(1)
}

/// Which cells a torn operation reaches, and which of them it leaves in doubt.
fn torn(cells: Cells, extreme: bool, random: &mut Random) -> (u64, u64) {
    match (cells.waver, extreme) {
        (true, true) => (u64::MAX, u64::MAX),
        (true, false) => (reach(random), reach(random)),
        (false, _) => (reach(random), 0),
    }
}

/// Which cells something is about: often all or none.
fn reach(random: &mut Random) -> u64 {
    match random.below(12) {
        0..3 => 0,
        3..7 => u64::MAX,
        7 => 1 << random.below(64),
        kind => random.mask_of(kind - 6),
    }
}

/// Clears the cells where `word` has a 0 as far as the mask lets it; some of them waver from now on.
fn clear(unit: &mut Unit, word: u64, mask: u64, doubt: u64) {
    let changed = (unit.data | unit.doubt) & !word & mask;
    unit.data &= !(changed & !doubt);
    unit.doubt = unit.doubt & !changed | changed & doubt;
}

impl MarkedFlash for Doubtful {
    fn pages(&self) -> usize {
        self.slots.len() / PAGE_SLOTS
    }

    fn triples(&self) -> usize {
        TRIPLES
    }

    fn read_slot(&self, page: usize, slot: usize) -> [u8; SLOT_BYTES] {
        self.read(self.slots[page * PAGE_SLOTS + slot])
    }

    fn read_mark(&self, page: usize, mark: usize) -> [u8; SLOT_BYTES] {
        self.read(self.marks[page * MARKS + mark])
    }

    fn program_slot(&mut self, page: usize, slot: usize, bytes: [u8; SLOT_BYTES]) -> Result<(), FlashFault> {
        self.program(false, page * PAGE_SLOTS + slot, bytes)
    }

    fn program_mark(&mut self, page: usize, mark: usize, bytes: [u8; SLOT_BYTES]) -> Result<(), FlashFault> {
        self.program(true, page * MARKS + mark, bytes)
    }

    fn erase_slots(&mut self, page: usize) -> Result<(), FlashFault> {
        self.erase(false, page)
    }

    fn erase_marks(&mut self, page: usize) -> Result<(), FlashFault> {
        self.erase(true, page)
    }

    fn is_unreadable(&self) -> bool {
        false
    }

    fn give_up(&mut self) {
        self.power.give_up();
    }
}

impl Adapter for SteadyFlash<Doubtful> {
    type Chip = Doubtful;

    /// With the last one many operations fail 8 times in a row.
    const FAULTS: [Option<usize>; 3] = [None, Some(32), Some(2)];
    const SOON: [usize; 4] = [4, 8, 16, 200];

    fn blank(pages: usize, cells: Cells, power: Power, seed: u64) -> Doubtful {
        Doubtful::erased(pages, cells, Again::SameBits, power, seed)
    }

    fn start(chip: Doubtful, pages: usize) -> Result<Self, (Doubtful, MountError)> {
        debug_assert_eq!(chip.pages(), pages + 1);
        // A start in which an operation failed 8 times in a row is made again, as a firmware does.
        let mut started = SteadyFlash::take_over(chip);
        for _ in 1..8 {
            started = match started {
                Err(Unmounted { flash, why: MountError::Fault }) if !flash.power.is_off() => SteadyFlash::take_over(flash),
                other => other,
            };
        }
        started.map_err(|Unmounted { flash, why }| (flash, why))
    }

    fn stop(self) -> Doubtful {
        self.into_flash()
    }

    fn after_plain<S: Subject>(chip: Doubtful, _: usize, subject: &mut S, stage: &mut Stage) -> Result<Doubtful, Broken> {
        chip.after_plain(subject, stage)
    }
}

/// The slots of all pages but the last one, as a plain log has them.
struct Slots(Doubtful);

impl NorFlash for Slots {
    fn pages(&self) -> usize {
        MarkedFlash::pages(&self.0) - 1
    }

    fn read_slot(&self, page: usize, slot: usize) -> [u8; SLOT_BYTES] {
        MarkedFlash::read_slot(&self.0, page, slot)
    }

    fn program_slot(&mut self, page: usize, slot: usize, bytes: [u8; SLOT_BYTES]) -> Result<(), FlashFault> {
        MarkedFlash::program_slot(&mut self.0, page, slot, bytes)
    }

    fn erase_page(&mut self, page: usize) -> Result<(), FlashFault> {
        self.0.erase_slots(page)
    }
}
