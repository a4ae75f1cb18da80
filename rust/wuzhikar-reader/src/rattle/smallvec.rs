//! A list that needs no memory while it is short: the crate `smallvec` of the source. The published crate does the same over
//! `unsafe`; this one is short enough to be read.

use super::alloc::{AllocError, Global};
use super::memory::PushIn;
use ::alloc::vec::Vec;
use arrayvec::ArrayVec;

/// Up to `N` values in itself, and more in memory.
pub struct SmallVec<T, const N: usize> {
    /// The first values.
    near: ArrayVec<T, N>,
    /// All values where they are more than `N`; else none.
    far: Vec<T>,
}

impl<T: Copy, const N: usize> SmallVec<T, N> {
    /// No value yet, and no memory.
    #[inline(always)]
    pub fn new(_alloc: Global) -> SmallVec<T, N> {
        SmallVec { near: ArrayVec::new(), far: Vec::new() }
    }

    /// All values.
    #[inline(always)]
    pub fn as_slice(&self) -> &[T] {
        if self.far.is_empty() { &self.near } else { &self.far }
    }

    /// Drops all values, and keeps the memory.
    #[inline(always)]
    pub fn clear(&mut self) {
        self.near.clear();
        self.far.clear();
    }

    /// Appends a value after `N` or more.
    #[cold]
    #[inline(never)]
    fn push_far(&mut self, value: T) -> Result<(), AllocError> {
        if self.far.is_empty() {
            self.far.try_reserve(2 * N)?;
            self.far.extend_from_slice(&self.near);
        }
        self.far.push_in(value)
    }
}

impl<T: Copy, const N: usize> PushIn<T> for SmallVec<T, N> {
    type Outcome = Result<(), AllocError>;

    #[inline(always)]
    fn push_in(&mut self, value: T) -> Result<(), AllocError> {
        if self.near.is_full() {
            return self.push_far(value);
        }
        self.near.push(value);
        Ok(())
    }
}

impl<T: core::fmt::Debug + Copy, const N: usize> core::fmt::Debug for SmallVec<T, N> {
    fn fmt(&self, f: &mut core::fmt::Formatter<'_>) -> core::fmt::Result {
        f.debug_list().entries(self.as_slice()).finish()
    }
}
