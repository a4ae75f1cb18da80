//! Stand-ins for the parts of Rattle's library that the source calls. Written by hand: tested, not proved.
//! **Not part of the stable interface.**

pub mod hex;

pub use wuzhikar_reader::rattle::{Vec, alloc, memory, vec};
