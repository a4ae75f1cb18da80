//! Calls that grow, for which memory may be refused: what these are called in Rattle without `_in` and `try_`.

use super::alloc::{AllocError, Global};
use ::alloc::vec::Vec;
use arrayvec::ArrayVec;

/// Appending a value.
pub trait PushIn<T> {
    /// What it comes to: nothing, where there is no memory to be refused.
    type Outcome;

    fn push_in(&mut self, value: T) -> Self::Outcome;
}

impl<T> PushIn<T> for Vec<T> {
    type Outcome = Result<(), AllocError>;

    #[inline(always)]
    fn push_in(&mut self, value: T) -> Result<(), AllocError> {
        if self.len() == self.capacity() {
            grow(self)?;
        }
        self.push(value);
        Ok(())
    }
}

#[cold]
#[inline(never)]
fn grow<T>(all: &mut Vec<T>) -> Result<(), AllocError> {
    Ok(all.try_reserve(1)?)
}

impl<T, const N: usize> PushIn<T> for ArrayVec<T, N> {
    type Outcome = ();

    #[inline(always)]
    fn push_in(&mut self, value: T) {
        self.push(value);
    }
}

/// Other growths of a vector.
pub trait VecIn<T> {
    fn insert_in(&mut self, at: usize, value: T) -> Result<(), AllocError>;
    fn reserve_in(&mut self, more: usize) -> Result<(), AllocError>;
    fn extend_in(&mut self, more: &[T]) -> Result<(), AllocError>
    where
        T: Clone;
}

impl<T> VecIn<T> for Vec<T> {
    #[inline(always)]
    fn insert_in(&mut self, at: usize, value: T) -> Result<(), AllocError> {
        self.try_reserve(1)?;
        self.insert(at, value);
        Ok(())
    }

    #[inline(always)]
    fn reserve_in(&mut self, more: usize) -> Result<(), AllocError> {
        if self.capacity() == 0 {
            // A new list in its place, so that the compiler knows of no memory to be kept.
            let mut made = Vec::new();
            made.try_reserve(more)?;
            *self = made;
            return Ok(());
        }
        Ok(self.try_reserve(more)?)
    }

    #[inline(always)]
    fn extend_in(&mut self, more: &[T]) -> Result<(), AllocError>
    where
        T: Clone,
    {
        self.try_reserve(more.len())?;
        self.extend_from_slice(more);
        Ok(())
    }
}

/// A copy of what needs no memory.
pub trait TryClone: Copy {
    #[inline(always)]
    fn try_clone(&self) -> Result<Self, AllocError> {
        Ok(*self)
    }
}

impl<T: Copy> TryClone for T {}

/// A copy of a vector.
pub trait TryCloneVec: Sized {
    fn try_clone(&self) -> Result<Self, AllocError>;
}

impl<T: Copy> TryCloneVec for Vec<T> {
    fn try_clone(&self) -> Result<Vec<T>, AllocError> {
        let mut copy = super::vec::with_capacity((), self.len())?;
        copy.extend_from_slice(self);
        Ok(copy)
    }
}

/// Collecting into a vector.
pub trait CollectIn: Iterator + Sized {
    fn collect_in(self, alloc: Global) -> Result<Vec<Self::Item>, AllocError> {
        let mut all = super::vec::new(alloc);
        for value in self {
            all.push_in(value)?;
        }
        Ok(all)
    }
}

impl<I: Iterator> CollectIn for I {}
