// SPDX-License-Identifier: MIT OR Apache-2.0
//! The keyboard, its USB device layer, the log and settings behind a C ABI, for firmware. `wuzhikar.h` says of each call what
//! it takes, gives and refuses.
//!
//! [`keyboard`], [`device`], [`log`], [`settings`] and [`paired`] are the objects of the header with their calls, [`store`] has calls without one; [`flash`] and
//! [`driver`] are the tables of functions that a firmware lends, [`layout`] the codes that its keys have at first. [`edge`] has
//! the only `unsafe` blocks: objects in the caller's memory, and its pointers. Written by hand: tested, not proved.
#![cfg_attr(not(test), no_std)]
#![deny(unsafe_code, clippy::undocumented_unsafe_blocks)]

#[allow(unsafe_code)] // the names that the linker sees, and nothing else
mod device;
mod driver;
#[allow(unsafe_code)]
mod edge;
mod flash;
#[allow(unsafe_code)] // the same
mod keyboard;
#[allow(unsafe_code)] // the same
mod layout;
#[allow(unsafe_code)] // the same
mod log;
#[allow(unsafe_code)] // the same
mod paired;
#[allow(unsafe_code)] // the same
mod settings;
mod sizes;
#[allow(unsafe_code)] // the same
mod status;
#[allow(unsafe_code)] // the same
mod store;
