// SPDX-License-Identifier: MIT OR Apache-2.0

//! The device layer, the device at the token, and the device behind buffers.

mod buffers;
mod device;
mod layer;
#[path = "../../tests/src/other.rs"]
mod other;

use crate::Keys;
use other::Other;
use wuzhikar::{Defaults, KeyboardOf, SimFlash, Standard};

/// Default codes that a random history is of.
trait Layouted: Defaults + Sized {
    /// A keyboard that starts on this flash.
    fn keys(flash: SimFlash) -> Keys<SimFlash, KeyboardOf<Self>>;
}

impl Layouted for Standard {
    fn keys(flash: SimFlash) -> Keys<SimFlash> {
        Keys::start(flash).unwrap()
    }
}

impl Layouted for Other {
    fn keys(flash: SimFlash) -> Keys<SimFlash, KeyboardOf<Other>> {
        Keys::start_with(flash, Other).unwrap()
    }
}
