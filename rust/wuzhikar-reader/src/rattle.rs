//! Stand-ins for the parts of Rattle's library that the source calls. Written by hand: tested, not proved.
//! **Not part of the stable interface.**

pub mod alloc;
pub mod memory;
pub mod smallvec;
pub mod vec;

pub use ::alloc::vec::Vec;
