// SPDX-License-Identifier: MIT OR Apache-2.0

//! A host that is played, for the tests of a maker's firmware (feature `testing`, which takes `std`).
//!
//! The maker says in a [`Firmware`] what is shipped: the product, the layout, the flash driver, and the driver of the USB
//! controller. The registers of the controller are played ([`Wire`]): the driver reads and writes them by [`OnWire`], which calls
//! [`access`](OnWire::access) each time, for something may come on the bus then. [`check`] runs all tests, and each panics
//! where it finds a fault, with the seed and the last twenty tokens:
//!
//! - [`answers`]: both endpoints answer tokens as the driver was told.
//! - [`races`]: what comes at any access of a call is told once, and leaves nothing in the buffers.
//! - [`session`]: a host enumerates the keyboard, remaps a key, halts endpoint 1, sets the boot protocol, sleeps and is woken.
//! - [`suspends`]: a suspend at any access is told.
//! - [`histories`]: random histories in which acknowledgements are lost. What the host saw the end of is in the flash, and no
//!   key sticks.
//!
//! The files `examples/*_usb/tests.rs` are firmwares.

mod drivers;
pub(crate) mod host;
mod line;
mod run;
mod sessions;

pub use drivers::{answers, races};
pub use line::{Answer, OnWire, Wire, Wired};
pub use run::{Cells, Firmware, UsbOf};
pub use sessions::{check, histories, session, suspends};
