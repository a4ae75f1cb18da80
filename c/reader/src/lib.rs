// SPDX-License-Identifier: MIT OR Apache-2.0
//! The reader of HID report descriptors and reports behind a C ABI. `hid_reader.h` says of each call what it takes, gives
//! and refuses.
//!
//! [`calls`], [`details`], [`values`], [`views`] and [`raw`] are the calls of the header, [`handles`] and [`table`] keep what
//! handles name, [`names`] has the names of faults and statuses. [`edge`] has the only `unsafe` blocks: they read and write
//! through the pointers of a caller. Written by hand: tested, not proved.
#![deny(unsafe_code, clippy::undocumented_unsafe_blocks)]

#[allow(unsafe_code)] // the names that the linker sees, and nothing else
mod calls;
#[allow(unsafe_code)] // the same
mod details;
#[allow(unsafe_code)]
mod edge;
mod handles;
mod names;
#[allow(unsafe_code)] // the names that the linker sees, and nothing else
mod raw;
mod status;
mod table;
#[allow(unsafe_code)] // the names that the linker sees, and nothing else
mod values;
#[allow(unsafe_code)] // the same
mod views;
