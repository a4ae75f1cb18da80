//! A reader of HID report descriptors and of input reports (HID 1.11).
//!
//! [`parse`] reads a whole report descriptor, and returns the declared fields or the first fault. A [`Parser`] takes the
//! descriptor in pieces, as they come off the bus. [`Items`] splits it into items, whatever they say. [`extract`] reads an
//! input report by a [`Descriptor`], and [`pressed`] lists the usages that are on in it.
//!
//! ```
//! use wuzhikar_reader::{extract, parse, pressed};
//!
//! // Eight modifier keys, a bit each.
//! let text = [0x05, 0x07, 0x19, 0xe0, 0x29, 0xe7, 0x25, 0x01, 0x75, 0x01, 0x95, 0x08, 0x81, 0x02];
//! let descriptor = parse(&text)?;
//! assert_eq!(descriptor.fields().len(), 1);
//! let found = extract(&descriptor, &[0b10])?;
//! assert_eq!(pressed(&found)?, [0x0007_00e1]);
//!
//! let error = parse(&[0xc0]).unwrap_err();
//! assert_eq!(error.to_string(), "fault 8 at 0: EndWithoutCollection");
//! # Ok::<(), Box<dyn core::error::Error>>(())
//! ```
//!
//! No input is trusted: it may be any bytes, and the time is linear in their number. A call that allocates returns an
//! error when the allocation fails ([`AllocError`], or `Memory` among its errors).
//!
//! # The fields of a report
//!
//! ```
//! use wuzhikar_reader::{Field, Kind, parse};
//!
//! // Three buttons of a bit each, five bits of padding, and the axis X of a byte.
//! let text = [
//!     0x05, 0x09, 0x19, 1, 0x29, 3, 0x25, 1, 0x75, 1, 0x95, 3, 0x81, 0x02, 0x75, 5, 0x95, 1, 0x81, 0x03, 0x05, 0x01, 0x09, 0x30,
//!     0x15, 0x81, 0x25, 0x7f, 0x75, 8, 0x81, 0x06,
//! ];
//! let descriptor = parse(&text)?;
//! let mut told = Vec::new();
//! for one in descriptor.report(Kind::Input, 0) {
//!     let Field { bit, size, count, min, max, .. } = one.field;
//!     told.push(((bit, size, count), (min, max), one.usages().collect::<Vec<u32>>()));
//! }
//! let buttons = ((0, 1, 3), (0, 1), vec![0x0009_0001, 0x0009_0002, 0x0009_0003]);
//! let axis = ((8, 8, 1), (-127, 127), vec![0x0001_0030]);
//! assert_eq!(told, [buttons, axis]);
//! # Ok::<(), wuzhikar_reader::ParseError>(())
//! ```
//!
//! # The items of a text
//!
//! ```
//! use wuzhikar_reader::{Items, LocalTag, ParseError, ParseFault, Tag};
//!
//! // Usage 30h, and an item that is cut off.
//! let mut items = Items::new(&[0x09, 0x30, 0x26, 0xff]);
//! let Some(Ok(usage)) = items.next() else { panic!("an item") };
//! assert_eq!((usage.tag(), usage.offset, usage.bytes), (Tag::Local(LocalTag::Usage), 0, &[0x30][..]));
//! assert_eq!(items.next(), Some(Err(ParseError { fault: ParseFault::Truncated, offset: 2 })));
//! ```
//!
//! **Exported from a proved source.** The hidden module `parts` holds the code of crates that are proved in Rattle
//! (Rust with contracts), without what only the prover reads. The proofs are about that source: the fields are exactly
//! those that the text declares, a refusal is its first fault, a report is read exactly as its descriptor says. What is
//! written by hand in this crate is tested and not proved.
#![no_std]
#![forbid(unsafe_code)]
#![warn(missing_debug_implementations)]

extern crate alloc;

#[doc(hidden)]
pub mod calls;
mod face;
#[doc(hidden)]
pub mod parts;
#[doc(hidden)]
pub mod rattle;

pub use crate::face::{extract, parse, parse_lenient, pressed};
pub use crate::parts::descriptor_parse::{
    Descriptor, Field, FieldUsages, GlobalTag, Item, Items, Kind, LocalTag, MainTag, ParseError, ParseFault, Parser,
    ReportFields, Tag, Usages,
};
pub use crate::parts::host_extract::{BOOT_DESCRIPTOR, ExtractError, Found};
pub use crate::parts::lenient_parse::Lenient;
pub use crate::rattle::alloc::AllocError;
