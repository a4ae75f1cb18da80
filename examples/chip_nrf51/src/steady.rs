// SPDX-License-Identifier: MIT OR Apache-2.0
//! The log's pages with a spare one and marks, the last of the flash: those of a chip whose torn cells waver. What a plain log left
//! there is taken over.

use crate::nvmc::{END, Nvmc};
use wuzhikar::wuzhikar_log::{MarkedUnits, SteadyFlash};

const PAGES: usize = 2;
/// The bytes of the flash that the log has: a page more, and an erase unit of marks for each.
pub const LOG: u32 = (4096 + 1024) * (PAGES as u32 + 1);

pub type Flash = SteadyFlash<MarkedUnits<Nvmc>>;

pub fn flash() -> Option<Flash> {
    SteadyFlash::take_over(MarkedUnits::new(Nvmc, END - LOG, PAGES).ok()?).ok()
}
