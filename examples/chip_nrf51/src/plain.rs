// SPDX-License-Identifier: MIT OR Apache-2.0
//! The log's pages, the last of the flash.

use crate::nvmc::{END, Nvmc};
use wuzhikar::wuzhikar_log::SlotFlash;

const PAGES: usize = 2;
/// The bytes of the flash that the log has.
pub const LOG: u32 = 4096 * PAGES as u32;

pub type Flash = SlotFlash<Nvmc>;

pub fn flash() -> Option<Flash> {
    SlotFlash::new(Nvmc, END - LOG, PAGES).ok()
}
