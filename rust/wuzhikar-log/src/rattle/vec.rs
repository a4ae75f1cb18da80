//! Vectors whose growth may be refused.

use super::alloc::Global;
use ::alloc::collections::TryReserveError;
use ::alloc::vec::Vec;

/// So many times this value.
pub fn of<T: Clone>(_alloc: Global, value: T, count: usize) -> Result<Vec<T>, TryReserveError> {
    let mut all = Vec::new();
    all.try_reserve_exact(count)?;
    all.resize(count, value);
    Ok(all)
}
