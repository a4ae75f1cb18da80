// Exported from crates/host_extract/src/lib.rt by bin/export-rust. Edit that file instead.
//! What a host reads in the input reports of a HID device (HID 1.11, sections 5.6 and 6.2.2).
//!
//! [`extract`] reads a report by the descriptor that `descriptor_parse` gives: the usages that it names, with their
//! values, those of variable fields also where they are 0 or outside the logical extents. [`pressed`] makes of them the
//! list of the usages that are on, which is meant for keys and buttons: an axis or a hat switch counts as on wherever
//! its value isn't 0, its null value too (HID 1.11, section 5.10).
//!
//! ```text
//! let descriptor = parse(alloc, text)?;
//! let found = extract(alloc, &descriptor, report)?;
//! let on = pressed(alloc, &found)?;
//! ```
//!
//! Each of the two gives one new vector. A reading takes time linear in the report's values.
//!
//! Nothing is kept. The guarantee is that a report is read exactly as its descriptor says, or refused for the first of
//! the reasons that it gives. The crate `kbsim` calls it.

mod boot;
mod error;
mod number;
mod places;
mod press;
mod read;
mod reading;

pub use boot::BOOT_DESCRIPTOR;
pub use error::ExtractError;
pub use number::{byte_at, number_at};
pub use places::value_at;
pub use press::pressed;
pub use read::extract;
pub use reading::Found;
