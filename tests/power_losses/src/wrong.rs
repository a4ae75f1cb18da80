// SPDX-License-Identifier: MIT OR Apache-2.0
//! Adapters and units that are wrong in one point each, to see that lives find it.

mod pages;
mod steady;
mod units;

use crate::chip::STEADY;
use crate::flashes::Adapter;
use crate::runner::{Broken, Tally, life};
use crate::subjects::Subject;

/// The first thing that 10 lives of 400 losses of power find broken.
fn first_broken<S: Subject, A: Adapter>() -> Result<Tally, Broken> {
    let mut all = Tally::default();
    for seed in 0..10 {
        all.add(life::<S, A>(seed, 400, STEADY)?);
    }
    Ok(all)
}

/// Whether one of 100 lives is broken by something that was lost.
fn loses<S: Subject, A: Adapter>() -> bool {
    (0..100).any(|seed| matches!(life::<S, A>(seed, 500, STEADY), Err(Broken::Lost(_))))
}
