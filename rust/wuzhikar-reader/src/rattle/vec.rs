//! Vectors whose memory may be refused.

use super::alloc::{AllocError, Global};
use ::alloc::vec::Vec;

/// No value yet, and no memory.
#[inline(always)]
pub fn new<T>(_alloc: Global) -> Vec<T> {
    Vec::new()
}

/// No value yet, with room for so many.
#[inline(always)]
pub fn with_capacity<T>(_alloc: Global, count: usize) -> Result<Vec<T>, AllocError> {
    let mut made = Vec::new();
    made.try_reserve_exact(count)?;
    Ok(made)
}

/// So many times this value.
pub fn of<T: Clone>(alloc: Global, value: T, count: usize) -> Result<Vec<T>, AllocError> {
    let mut all = with_capacity(alloc, count)?;
    all.resize(count, value);
    Ok(all)
}
