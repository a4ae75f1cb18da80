// Exported from crates/host/src/lib.rt by bin/export-rust. Edit that file instead.
//! The host's side of this keyboard: it gathers the report descriptor off the bus, parses it as it comes, and reads input
//! reports by it. (It keeps texts of 99 bytes, of interface 0, that come in packets of 8. For another device use
//! `wuzhikar_reader::Parser` and `wuzhikar_reader::extract`.)
//!
//! A [`Host`] keeps the text that it gathers, and the descriptor of the last one, of 99 bytes, that it gathered whole
//! and without a fault. The guarantee is that it reads each report by that descriptor, and in boot protocol by its own.
//! `world` calls it, and a driver of a host can.

mod gatherer;
mod gathering;
mod reading;

pub use gatherer::Host;
pub use reading::{Reading, UsageList};
