// SPDX-License-Identifier: MIT OR Apache-2.0
//! Pointers that C hands over, and all that is done with them.
//!
//! [`Input`], [`Output`] and [`Outputs`] are raw pointers as the ABI has them. Their fields are private and nothing here
//! makes one, so only a caller in C does, who owes what `hid_reader.h` asks. A pointer that is not null leads to as many values
//! as its count says, to read or to write, and nobody else writes them during the call. Nothing is asked of their alignment,
//! and no pointer is kept.

use crate::status::Status;
use core::marker::PhantomData;
use core::ptr::NonNull;

/// Where bytes stand that a call reads.
#[repr(transparent)]
pub struct Input(*const u8);

impl Input {
    /// The bytes. `Null` where there are some behind a null pointer, `Length` for more than memory can hold.
    pub fn bytes(&self, length: usize) -> Result<&[u8], Status> {
        if length == 0 {
            return Ok(&[]);
        }
        if self.0.is_null() {
            return Err(Status::Null);
        }
        if isize::try_from(length).is_err() {
            return Err(Status::Length);
        }
        // SAFETY: the caller owes `length` bytes behind the pointer, which is not null and whose bytes nobody writes during
        // the call; their number fits into `isize`. The slice lives as long as `self`, which is an argument of the call.
        Ok(unsafe { core::slice::from_raw_parts(self.0, length) })
    }
}

impl Input {
    /// A copy of the bytes, for a call that writes where they may stand. `NoMemory` where there is none.
    pub fn owned(&self, length: usize) -> Result<Vec<u8>, Status> {
        let bytes = self.bytes(length)?;
        let mut owned = Vec::new();
        owned.try_reserve_exact(bytes.len()).map_err(|_| Status::NoMemory)?;
        owned.extend_from_slice(bytes);
        Ok(owned)
    }
}

/// Where bytes stand that a call reads and changes.
#[repr(transparent)]
pub struct Shared(*mut u8);

impl Shared {
    /// The bytes. `Null` where there are some behind a null pointer, `Length` for more than memory can hold.
    pub fn bytes(&mut self, length: usize) -> Result<&mut [u8], Status> {
        if length == 0 {
            return Ok(&mut []);
        }
        if self.0.is_null() {
            return Err(Status::Null);
        }
        if isize::try_from(length).is_err() {
            return Err(Status::Length);
        }
        // SAFETY: the caller owes `length` bytes behind the pointer, which is not null and whose bytes nobody else reads or
        // writes during the call; their number fits into `isize`. Each call asks once, and copies what else it reads before.
        Ok(unsafe { core::slice::from_raw_parts_mut(self.0, length) })
    }
}

/// Where a call writes one value.
#[repr(transparent)]
pub struct Output<T>(*mut T);

impl<T: Copy> Output<T> {
    /// The place. `Null` where there is none.
    pub fn place(self) -> Result<Place<T>, Status> {
        self.place_if_any().ok_or(Status::Null)
    }

    /// The place, if there is one.
    pub fn place_if_any(self) -> Option<Place<T>> {
        NonNull::new(self.0).map(Place)
    }
}

/// A place for one value.
pub struct Place<T>(NonNull<T>);

impl<T: Copy> Place<T> {
    pub fn put(self, value: T) {
        // SAFETY: it came from an `Output`, whose pointer leads to room for one value, as the caller owes.
        unsafe { self.0.write_unaligned(value) }
    }
}

/// Where a call writes several values.
#[repr(transparent)]
pub struct Outputs<T>(*mut T);

impl<T: Copy> Outputs<T> {
    /// The places. `Null` where there are some behind a null pointer, `Length` for more than memory can hold.
    pub fn places(self, room: usize) -> Result<Places<T>, Status> {
        let start = match NonNull::new(self.0) {
            Some(start) => start,
            None if room == 0 => NonNull::dangling(),
            None => return Err(Status::Null),
        };
        match room.checked_mul(size_of::<T>()).map(isize::try_from) {
            Some(Ok(_)) => Ok(Places { start, room, values: PhantomData }),
            _ => Err(Status::Length),
        }
    }
}

/// Places for so many values, one after the other.
pub struct Places<T> {
    start: NonNull<T>,
    room: usize,
    values: PhantomData<*mut T>,
}

impl<T: Copy> Places<T> {
    /// Puts the first values, as many as there is room for.
    pub fn put(self, values: impl Iterator<Item = T>) {
        for (number, value) in values.take(self.room).enumerate() {
            self.set(number, value);
        }
    }

    /// Puts the first values, as many as there is room for, and gives how many there are.
    pub fn put_all(self, values: impl Iterator<Item = T>) -> usize {
        values.enumerate().map(|(number, value)| self.set(number, value)).count()
    }

    /// Puts a value into the place with this number, if there is one.
    pub fn set(&self, number: usize, value: T) {
        if number < self.room {
            // SAFETY: the places came from `Outputs`, behind which the caller owes room for `room` values; `number` is below
            // that, and their bytes fit into `isize`.
            unsafe { self.start.add(number).write_unaligned(value) }
        }
    }

    /// Whether these bytes and the places share memory. Where there are no places, or no bytes, they do not.
    pub fn overlap(&self, bytes: &[u8]) -> bool {
        let (start, other) = (self.start.as_ptr().addr(), bytes.as_ptr().addr());
        let size = self.room.saturating_mul(size_of::<T>());
        let some = size > 0 && !bytes.is_empty();
        some && start < other.saturating_add(bytes.len()) && other < start.saturating_add(size)
    }

    /// How many places there are.
    pub fn room(&self) -> usize {
        self.room
    }
}
