// SPDX-License-Identifier: MIT OR Apache-2.0
//! The power of a played chip, which the test holds beside it.

use std::cell::Cell;
use std::rc::Rc;

use crate::random::Random;

/// Why a call of a played chip failed.
#[derive(Clone, Copy, Debug, PartialEq, Eq)]
pub enum ChipError {
    /// An operation was torn, or there is no power.
    Torn,
    /// What is read has an error that can't be corrected, or reads as erased and is not quite.
    Uncorrectable,
    /// The call asks for what the data sheet forbids.
    Misuse(&'static str),
}

/// What becomes of an operation.
#[derive(Clone, Copy, Debug, PartialEq, Eq)]
pub enum Fate {
    /// It is made.
    Whole,
    /// It is torn, and the chip tells of a fault or is without power from then on.
    Torn,
    /// There is no power: nothing happens.
    Nothing,
}

/// What a flash does that takes time.
#[derive(Clone, Copy, Debug, PartialEq, Eq)]
pub enum Operation {
    Write,
    Erase,
}

/// The power, shared by a chip and its test.
#[derive(Clone, Debug, Default)]
pub struct Power(Rc<State>);

#[derive(Debug, Default)]
struct State {
    /// One of this many operations is torn though the power stays on; none where it is 0.
    one_fault_in: Cell<usize>,
    /// How many whole operations come before the one in which the power is cut.
    left: Cell<u64>,
    off: Cell<bool>,
    faults: Cell<u64>,
    cut_erases: Cell<u64>,
    given_up: Cell<u64>,
    misuse: Cell<Option<&'static str>>,
}

impl Power {
    /// From here on one of this many operations is torn though the power stays on, or none.
    pub fn set_faults(&self, one_in: Option<usize>) {
        self.0.one_fault_in.set(one_in.unwrap_or(0));
    }

    /// Switches the power on; it is cut inside the operation that comes after `whole` others.
    pub fn on(&self, whole: u64) {
        self.0.left.set(whole);
        self.0.off.set(false);
    }

    pub fn is_off(&self) -> bool {
        self.0.off.get()
    }

    /// How many operations were torn while the power stayed on.
    pub fn faults(&self) -> u64 {
        self.0.faults.get()
    }

    /// How many of the operations that the power was cut in were erases.
    pub fn cut_erases(&self) -> u64 {
        self.0.cut_erases.get()
    }

    /// Switches the power off between two operations: the chip is reset.
    pub fn give_up(&self) {
        self.0.off.set(true);
        self.0.given_up.set(self.given_up() + 1);
    }

    /// How often the chip was reset.
    pub fn given_up(&self) -> u64 {
        self.0.given_up.get()
    }

    /// What a driver was asked that it should not have been, if anything.
    pub fn misuse(&self) -> Option<&'static str> {
        self.0.misuse.get()
    }

    /// Keeps what a driver was asked that it should not have been.
    pub fn misused(&self, how: &'static str) {
        self.0.misuse.set(Some(how));
    }

    /// The fate of the next operation.
    pub fn next(&self, operation: Operation, random: &mut Random) -> Fate {
        if self.is_off() {
            Fate::Nothing
        } else if self.0.left.get() == 0 {
            self.0.off.set(true);
            self.0.cut_erases.set(self.cut_erases() + u64::from(operation == Operation::Erase));
            Fate::Torn
        } else {
            self.0.left.set(self.0.left.get() - 1);
            let one_in = self.0.one_fault_in.get();
            if one_in == 0 || random.below(one_in) != 0 {
                return Fate::Whole;
            }
            self.0.faults.set(self.faults() + 1);
            Fate::Torn
        }
    }
}
