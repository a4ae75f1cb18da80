// SPDX-License-Identifier: MIT OR Apache-2.0
//! What is kept in flash, each with a ledger of what was confirmed.

mod keyboard;
mod log;
mod paged;
mod pages;
mod settings;
mod settings_in_c;

pub use keyboard::Keyboard;
pub use log::Log;
pub use paged::Paged;
pub use pages::Pages;
pub use settings::{InRust, Settings};
pub use settings_in_c::InC;

use wuzhikar_log::NorFlash;

use crate::random::Random;
use crate::runner::{Broken, Stage};

/// Something that is kept in flash, by the ledger of what has to be there.
pub trait Subject {
    /// What it is called.
    const NAME: &'static str;

    /// The ledger of a blank flash.
    fn new(random: &mut Random) -> Self;

    /// A session: starts on the flash, compares what is there with the ledger, and changes it until the power is off.
    fn session<F: NorFlash>(&mut self, flash: F, stage: &mut Stage) -> Result<F, Broken>;
}
