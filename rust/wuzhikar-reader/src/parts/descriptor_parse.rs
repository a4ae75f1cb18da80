// Exported from crates/descriptor_parse/src/lib.rt by bin/export-rust. Edit that file instead.
//! The host's parser of HID report descriptors (HID 1.11, section 6.2.2).
//!
//! [`parse`] reads a whole text: it gives the fields that the text declares, or its first fault. A [`Parser`] takes the
//! text in pieces, as they come off the bus, and gives the same answer. [`Items`] cuts a text into its items, whatever
//! they say. Nothing is trusted: any bytes may come, and the time is linear in them.
//!
//! A [`Descriptor`] keeps the fields in order of declaration, each with its usages, and how long each report is. It says
//! nothing of collections, units, physical extents, Relative or Null State. The guarantee is that its fields are exactly
//! those that the text declares, and that a refusal is the text's first fault. `host_extract` reads reports by it.

pub mod beside;
mod counts;
pub mod descriptor;
pub mod fault;
pub mod field;
pub mod field_usages;
pub mod globals;
pub mod items;
mod locals;
pub mod number;
pub mod parser;
pub mod readers;
mod reading;
mod reports;
pub mod stack;
pub mod state;
mod tag;
mod text;
mod totals;
pub mod usage;

pub use descriptor::Descriptor;
pub use fault::{ParseError, ParseFault};
pub use field::{Field, Kind};
pub use field_usages::FieldUsages;
pub use items::{Item, Items};
pub use parser::Parser;
pub use readers::{ReportFields, Usages};
pub use tag::{GlobalTag, LocalTag, MainTag, Tag};
pub use text::parse;
