// SPDX-License-Identifier: MIT OR Apache-2.0
//! Handles: numbers that name what a table keeps.
//!
//! A handle is a slot of the table and a generation, which tells apart the values that the slot had one after the other. No
//! handle is given twice, so a closed one is recognized for ever, without a look at what it named. A slot whose generations
//! are used up is not used any more.

use crate::status::Status;
use std::sync::{Mutex, MutexGuard, PoisonError};

/// The bits of a handle that are the slot. The others are the generation, from 1 on.
const SLOT_BITS: u32 = 16;
const LAST_GENERATION: u64 = u64::MAX >> SLOT_BITS;

/// A table of at most `N` values. A call of it holds one slot, or the list of free ones, and never two locks at once.
pub struct Table<T, const N: usize> {
    free: Mutex<Free<N>>,
    slots: [Mutex<Slot<T>>; N],
}

/// The free slots.
struct Free<const N: usize> {
    slots: [u16; N],
    count: usize,
}

struct Slot<T> {
    /// That of the last handle that was given for this slot; 0 where none was.
    generation: u64,
    value: Option<T>,
}

impl<T, const N: usize> Table<T, N> {
    /// A table without a value.
    pub const fn new() -> Table<T, N> {
        assert!(N <= 1 << SLOT_BITS);
        let mut slots = [0; N];
        let mut slot = 0;
        while slot < N {
            slots[slot] = (N - 1 - slot) as u16;
            slot += 1;
        }
        Table {
            free: Mutex::new(Free { slots, count: N }),
            slots: [const { Mutex::new(Slot { generation: 0, value: None }) }; N],
        }
    }

    /// Keeps a value: its handle. `Full` where there is no room for it.
    pub fn open(&self, value: T) -> Result<u64, Status> {
        let slot = lock(&self.free).take().ok_or(Status::Full)?;
        let mut kept = lock(&self.slots[usize::from(slot)]);
        kept.generation += 1;
        kept.value = Some(value);
        Ok(handle(slot, kept.generation))
    }

    /// Makes a call on the value of a handle. `NoHandle` if it was never given, `Closed` if it was closed.
    pub fn with<R>(&self, handle: u64, call: impl FnOnce(&mut T) -> Result<R, Status>) -> Result<R, Status> {
        let (mut kept, _) = self.find(handle)?;
        kept.value.as_mut().map_or(Err(Status::Closed), call)
    }

    /// Makes another value of the first. Where the change says that it went well, the first one's handle is closed: the
    /// handle of the second. Where it refuses, what it gives back stands under the same handle. `Full` where the slot has no
    /// handle left.
    pub fn renew(&self, old: u64, change: impl FnOnce(T) -> (T, Result<(), Status>)) -> Result<u64, Status> {
        let (mut kept, slot) = self.find(old)?;
        if kept.generation == LAST_GENERATION {
            return Err(Status::Full);
        }
        let (value, outcome) = change(kept.value.take().ok_or(Status::Closed)?);
        kept.value = Some(value);
        outcome?;
        kept.generation += 1;
        Ok(handle(slot, kept.generation))
    }

    /// Gives the value up; its handle is closed.
    pub fn close(&self, handle: u64) -> Result<T, Status> {
        let (mut kept, slot) = self.find(handle)?;
        let value = kept.value.take().ok_or(Status::Closed)?;
        let serves = kept.generation < LAST_GENERATION;
        drop(kept);
        if serves {
            lock(&self.free).give(slot);
        }
        Ok(value)
    }

    /// Locks the slot of a handle, and returns it with its number. `NoHandle` if the handle was never given, `Closed` if it was closed.
    fn find(&self, handle: u64) -> Result<(MutexGuard<'_, Slot<T>>, u16), Status> {
        let slot = (handle & ((1 << SLOT_BITS) - 1)) as u16;
        let generation = handle >> SLOT_BITS;
        let kept = lock(self.slots.get(usize::from(slot)).ok_or(Status::NoHandle)?);
        match generation {
            0 => Err(Status::NoHandle),
            _ if generation > kept.generation => Err(Status::NoHandle),
            _ if generation < kept.generation => Err(Status::Closed),
            _ => Ok((kept, slot)),
        }
    }
}

impl<const N: usize> Free<N> {
    fn take(&mut self) -> Option<u16> {
        self.count = self.count.checked_sub(1)?;
        Some(self.slots[self.count])
    }

    fn give(&mut self, slot: u16) {
        self.slots[self.count] = slot;
        self.count += 1;
    }
}

fn handle(slot: u16, generation: u64) -> u64 {
    generation << SLOT_BITS | u64::from(slot)
}

/// Nothing panics while it holds a lock, so none is poisoned.
fn lock<T>(mutex: &Mutex<T>) -> MutexGuard<'_, T> {
    mutex.lock().unwrap_or_else(PoisonError::into_inner)
}

#[cfg(test)]
mod tests {
    use super::*;

    fn value_of<const N: usize>(table: &Table<u32, N>, handle: u64) -> Result<u32, Status> {
        table.with(handle, |value| Ok(*value))
    }

    #[test]
    fn a_closed_handle_is_told_for_ever() {
        let table = Table::<u32, 1>::new();
        let first = table.open(1).unwrap();
        assert_eq!(table.open(2), Err(Status::Full));
        assert_eq!(value_of(&table, first), Ok(1));
        assert_eq!(table.close(first), Ok(1));
        for _ in 0..1000 {
            let next = table.open(3).unwrap();
            assert_eq!(value_of(&table, first), Err(Status::Closed));
            assert_eq!(table.close(first), Err(Status::Closed));
            assert_eq!(table.renew(first, |value| (value, Ok(()))), Err(Status::Closed));
            assert_eq!(table.close(next), Ok(3));
            assert_eq!(value_of(&table, next), Err(Status::Closed));
        }
    }

    #[test]
    fn what_was_never_given_is_no_handle() {
        let table = Table::<u32, 2>::new();
        let given = table.open(1).unwrap();
        for other in [0, 1, 2, u64::MAX, given + 1, given + (1 << SLOT_BITS), given & 0xffff] {
            assert_eq!(value_of(&table, other), Err(Status::NoHandle), "{other:x}");
        }
        assert_eq!(value_of(&table, given), Ok(1));
    }

    #[test]
    fn a_renewed_value_has_another_handle() {
        let table = Table::<u32, 1>::new();
        let first = table.open(1).unwrap();
        assert_eq!(table.renew(first, |value| (value + 1, Err(Status::Fault))), Err(Status::Fault));
        assert_eq!(value_of(&table, first), Ok(2));
        let second = table.renew(first, |value| (value + 1, Ok(()))).unwrap();
        assert_eq!(value_of(&table, first), Err(Status::Closed));
        assert_eq!(value_of(&table, second), Ok(3));
    }

    #[test]
    fn a_slot_whose_generations_are_used_up_is_not_used_any_more() {
        let table = Table::<u32, 2>::new();
        lock(&table.slots[0]).generation = LAST_GENERATION - 1;
        let last = table.open(1).unwrap();
        assert_eq!(table.renew(last, |value| (value + 1, Ok(()))), Err(Status::Full));
        assert_eq!(value_of(&table, last), Ok(1));
        assert_eq!(table.close(last), Ok(1));
        let other = table.open(2).unwrap();
        assert_eq!(other & 0xffff, 1);
        assert_eq!(table.open(3), Err(Status::Full));
        assert_eq!(value_of(&table, last), Err(Status::Closed));
    }
}
