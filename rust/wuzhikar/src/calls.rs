//! Calls with a condition on their caller that nothing checks, and calls that take the stand-in for the source's allocator,
//! for the crates of this workspace. Written by hand. **Not part of the stable interface.**

use crate::parts::debounce::{Debouncer, Scan};
use crate::parts::keyboard::{KeyboardOf, Room};
use crate::parts::layers::{Defaults, KeyNo, LayerNo};
use crate::rattle::alloc::{AllocError, Global};
use crate::unstarted::UnstartedKeyboardOf;
use wuzhikar_log::NorFlash;

/// Layers and keys made from numbers that the caller has checked.
pub trait Known {
    /// **Needs** a number of a layer (0 to 3), or of a key (0 to 95).
    fn known(number: u8) -> Self;
}

impl Known for LayerNo {
    fn known(number: u8) -> LayerNo {
        LayerNo::known(number)
    }
}

impl Known for KeyNo {
    fn known(number: u8) -> KeyNo {
        KeyNo::known(number)
    }
}

/// Calls of a scan by the numbers of keys.
pub trait ScanCalls {
    /// **Needs** a key of 0 to 95.
    fn has(&self, key: u8) -> bool;
    /// **Needs** a key of 0 to 95.
    fn with(self, key: u8, on: bool) -> Self;
}

impl ScanCalls for Scan {
    fn has(&self, key: u8) -> bool {
        Scan::has(self, key)
    }

    fn with(self, key: u8, on: bool) -> Scan {
        Scan::with(self, key, on)
    }
}

/// Calls of a debouncer by the numbers of keys.
pub trait DebouncerCalls {
    /// **Needs** a key of 0 to 95.
    fn is_down(&self, key: u8) -> bool;
}

impl DebouncerCalls for Debouncer {
    fn is_down(&self, key: u8) -> bool {
        Debouncer::is_down(self, key)
    }
}

/// How a keyboard starts in the source.
pub trait KeyboardCalls: Sized {
    /// A keyboard on a flash.
    fn start<F: NorFlash>(alloc: Global, flash: &F) -> Result<Self, AllocError>;
    /// A keyboard on a flash, in this room.
    fn start_in<F: NorFlash>(room: Room, flash: &F) -> Self;
}

impl<D: Defaults> KeyboardCalls for KeyboardOf<D> {
    fn start<F: NorFlash>(alloc: Global, flash: &F) -> Result<KeyboardOf<D>, AllocError> {
        KeyboardOf::start(alloc, flash)
    }

    fn start_in<F: NorFlash>(room: Room, flash: &F) -> KeyboardOf<D> {
        KeyboardOf::start_in(room, flash)
    }
}

/// The memory of a keyboard that has not started.
pub trait PlaceCalls<D: Defaults> {
    /// **Needs** that the first call is `restart`.
    fn place(&mut self) -> &mut KeyboardOf<D>;
}

impl<D: Defaults> PlaceCalls<D> for UnstartedKeyboardOf<D> {
    fn place(&mut self) -> &mut KeyboardOf<D> {
        UnstartedKeyboardOf::place(self)
    }
}
