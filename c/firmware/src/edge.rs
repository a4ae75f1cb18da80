// SPDX-License-Identifier: MIT OR Apache-2.0
//! Objects in the memory of a caller in C, its pointers, and all that is done with them.
//!
//! [`Handle`], [`Input`] and their like are raw pointers as the ABI has them. Their fields are private and nothing here makes
//! one, so only a caller in C does, who owes what `wuzhikar.h` asks. A pointer that is not null leads to what its type says.
//! Nobody writes what a call reads while it runs. An object's memory is zeros, or what a start left there.

use crate::layout::Codes;
use crate::status::{Answer, Status, told};
use core::ffi::c_int;
use core::mem::MaybeUninit;
use core::ptr::{NonNull, null_mut};
use core::sync::atomic::{AtomicPtr, Ordering};

/// What an object keeps.
pub trait Kept: Sized {
    /// Memory beside it that is lent to it, and stays where it is.
    type Lent: 'static;
    /// What that memory begins as.
    const UNSTARTED: Self::Lent;
}

/// An object, as it lies in the caller's memory.
#[repr(C)]
pub struct Object<T: Kept> {
    /// 0 where it was not started, as in memory of zeros; else what [`ready`] and [`busy`] say of its address and its size, so that
    /// a copy of it, or an object of another kind in its place, was not started.
    state: usize,
    kept: MaybeUninit<T>,
    lent: MaybeUninit<T::Lent>,
}

/// The state between two calls.
fn ready<T: Kept>(object: *mut Object<T>) -> usize {
    !object.addr() ^ size_of::<Object<T>>()
}

/// The state inside of one.
fn busy<T: Kept>(object: *mut Object<T>) -> usize {
    ready(object) ^ 1
}

/// Where an object lies.
#[repr(transparent)]
pub struct Handle<T: Kept>(*mut Object<T>);

impl<T: Kept> Handle<T> {
    /// The place, and its state. `Null` where there is none, or it is not aligned.
    fn place(&self) -> Result<(*mut Object<T>, usize), Status> {
        if self.0.is_null() || !self.0.is_aligned() {
            return Err(Status::Null);
        }
        // SAFETY: the caller owes an object behind the pointer, which is aligned; its first word is initialized, and nothing
        // borrows it.
        Ok((self.0, unsafe { (&raw const (*self.0).state).read() }))
    }

    /// Makes what the object keeps, of memory that is lent to it. Where that is refused it is not started.
    pub fn start(self, make: impl FnOnce(&'static mut T::Lent) -> Result<T, Status>) -> c_int {
        told(self.place().and_then(|(object, state)| {
            if state == busy(object) {
                return Err(Status::Busy);
            }
            // SAFETY: as above. No call of the object runs, so what it kept and lent before is used no more; and while this
            // one runs its state keeps any other from the memory that is lent here.
            let lent = unsafe {
                (&raw mut (*object).state).write(busy(object));
                let lent = (&raw mut (*object).lent).cast::<T::Lent>();
                lent.write(T::UNSTARTED);
                &mut *lent
            };
            let made = make(lent);
            // SAFETY: as above; what is lent is another field.
            unsafe {
                match made {
                    Ok(kept) => {
                        (&raw mut (*object).kept).cast::<T>().write(kept);
                        (&raw mut (*object).state).write(ready(object));
                        Ok(0)
                    }
                    Err(status) => {
                        (&raw mut (*object).state).write(0);
                        Err(status)
                    }
                }
            }
        }))
    }

    /// Makes a call of what the object keeps: `Busy` inside of another one, `NotStarted` before a start.
    pub fn call(self, call: impl FnOnce(&mut T) -> Answer) -> c_int {
        told(self.place().and_then(|(object, state)| {
            if state == busy(object) {
                return Err(Status::Busy);
            }
            if state != ready(object) {
                return Err(Status::NotStarted);
            }
            // SAFETY: as above. The state says that a start made what is kept, and keeps any other call from it.
            unsafe {
                (&raw mut (*object).state).write(busy(object));
                let answer = call(&mut *(&raw mut (*object).kept).cast::<T>());
                (&raw mut (*object).state).write(ready(object));
                answer
            }
        }))
    }
}

/// Where a value stands that a call reads: numbers, or a table of functions, any of which is one.
#[repr(transparent)]
pub struct Value<T>(*const T);

impl<T: Copy> Value<T> {
    /// The value. `Null` where there is none.
    pub fn get(&self) -> Result<T, Status> {
        if self.0.is_null() {
            return Err(Status::Null);
        }
        // SAFETY: the caller owes a value behind the pointer, which is not null.
        Ok(unsafe { self.0.read_unaligned() })
    }
}

/// Where values stand that a call reads.
#[repr(transparent)]
#[derive(Clone, Copy)]
pub struct Input<T>(*const T);

impl<T: Copy> Input<T> {
    /// The values. `Null` where there are some behind a null pointer, or one that is not aligned; `Length` for more than `most`.
    pub fn get(&self, length: usize, most: usize) -> Result<&[T], Status> {
        if length == 0 {
            return Ok(&[]);
        }
        if self.0.is_null() || !self.0.is_aligned() {
            return Err(Status::Null);
        }
        if length > most.min(isize::MAX as usize / size_of::<T>()) {
            return Err(Status::Length);
        }
        // SAFETY: the caller owes `length` values behind the pointer, which is aligned, and that nobody writes them during the
        // call. The slice lives as long as `self`, which is an argument of the call.
        Ok(unsafe { core::slice::from_raw_parts(self.0, length) })
    }
}

/// Where values stand that an object reads as long as it is used.
#[repr(transparent)]
#[derive(Clone, Copy)]
pub struct Lasting<T>(*const T);

impl<T: Copy> Lasting<T> {
    /// The values, `None` for a null pointer. `Null` where it is not aligned.
    pub fn get(&self) -> Result<Option<&'static T>, Status> {
        if !self.0.is_null() && !self.0.is_aligned() {
            return Err(Status::Null);
        }
        // SAFETY: the caller owes a value behind the pointer, if it is not null, which stays as it is as long as the object.
        Ok(unsafe { self.0.as_ref() })
    }

    /// So many values. `Null` where there are some behind a null pointer, or one that is not aligned; `Length` for more than
    /// memory can hold.
    pub fn many(&self, count: usize) -> Result<&'static [T], Status> {
        if count == 0 {
            return Ok(&[]);
        }
        if self.0.is_null() || !self.0.is_aligned() {
            return Err(Status::Null);
        }
        if count > isize::MAX as usize / size_of::<T>() {
            return Err(Status::Length);
        }
        // SAFETY: as above, of `count` values.
        Ok(unsafe { core::slice::from_raw_parts(self.0, count) })
    }
}

/// Where a call writes values.
#[repr(transparent)]
pub struct Output<T>(*mut T);

impl<T: Copy> Output<T> {
    /// Room for so many. `Null` where there is some behind a null pointer, `Length` for more than memory can hold.
    pub fn room(self, room: usize) -> Result<Room<T>, Status> {
        let start = match NonNull::new(self.0) {
            Some(start) => start,
            None if room == 0 => NonNull::dangling(),
            None => return Err(Status::Null),
        };
        if room > isize::MAX as usize / size_of::<T>() { Err(Status::Length) } else { Ok(Room { start, room }) }
    }
}

/// Room for so many values.
pub struct Room<T> {
    start: NonNull<T>,
    room: usize,
}

impl<T: Copy> Room<T> {
    /// Puts a value into the place of this number, if there is one.
    pub fn set(&self, number: usize, value: T) {
        if number < self.room {
            // SAFETY: it came from an `Output`, behind which the caller owes room for `room` values; `number` is below that.
            unsafe { self.start.add(number).write_unaligned(value) }
        }
    }

    /// Puts all of them, and gives their number. `Room` where there is too little, and then nothing is written.
    pub fn put(&self, values: &[T]) -> Answer {
        if values.len() > self.room {
            return Err(Status::Room);
        }
        for (number, value) in values.iter().enumerate() {
            self.set(number, *value);
        }
        Ok(values.len() as c_int)
    }

    /// Lends the first places to a call, which finds zeros there. `Room` where there are fewer, and then nothing is written.
    pub fn lend<R>(&self, length: usize, zero: T, call: impl FnOnce(&mut [T]) -> Result<R, Status>) -> Result<R, Status> {
        if length > self.room || !self.start.is_aligned() {
            return Err(Status::Room);
        }
        (0..length).for_each(|number| self.set(number, zero));
        // SAFETY: as in `set`; all were written just now. The slice lives no longer than this call, in which nothing else is read there.
        call(unsafe { core::slice::from_raw_parts_mut(self.start.as_ptr(), length) })
    }
}

/// Memory that is lent to a call.
#[repr(transparent)]
pub struct Lent<T>(*mut T);

impl<T> Lent<T> {
    /// Makes a value there of each of these. `Null` where there are some and no memory, or it is not aligned.
    pub fn fill<S>(&self, from: &[S], make: impl Fn(&S) -> Result<T, Status>) -> Result<&[T], Status> {
        if from.is_empty() {
            return Ok(&[]);
        }
        if self.0.is_null() || !self.0.is_aligned() {
            return Err(Status::Null);
        }
        for (number, one) in from.iter().enumerate() {
            let made = make(one)?;
            // SAFETY: the caller owes memory for as many values as there are in `from`, and `number` is below that.
            unsafe { self.0.add(number).write(made) }
        }
        // SAFETY: as above; each was written. The slice lives as long as `self`, which is an argument of the call.
        Ok(unsafe { core::slice::from_raw_parts(self.0, from.len()) })
    }
}

/// The default codes of the keyboard whose call runs; null for the standard ones.
static CODES: AtomicPtr<Codes> = AtomicPtr::new(null_mut());

/// Makes a call with these default codes. A call inside of it may have others.
pub fn with_codes<R>(codes: Option<&'static Codes>, call: impl FnOnce() -> R) -> R {
    let before = CODES.load(Ordering::Relaxed);
    CODES.store(codes.map_or(null_mut(), |codes| core::ptr::from_ref(codes).cast_mut()), Ordering::Relaxed);
    let made = call();
    CODES.store(before, Ordering::Relaxed);
    made
}

/// The default codes of the call that runs.
pub fn codes() -> Option<&'static Codes> {
    // SAFETY: it is null, or came from a reference that lives for ever.
    unsafe { CODES.load(Ordering::Relaxed).as_ref() }
}

#[cfg(not(any(test, feature = "hosted")))]
unsafe extern "C" {
    /// The firmware's.
    fn wz_panic() -> !;
}

/// What the proofs exclude, and what is written by hand here never does.
#[cfg(not(any(test, feature = "hosted")))]
#[panic_handler]
fn panic(_: &core::panic::PanicInfo) -> ! {
    // SAFETY: the header asks for a function without a condition that does not return.
    unsafe { wz_panic() }
}
