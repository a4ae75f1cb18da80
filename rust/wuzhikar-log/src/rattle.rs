//! Stand-ins for the parts of Rattle's library that the source calls. Written by hand: tested, not proved.
//! **Not part of the stable interface.**

pub mod simd;

#[cfg(feature = "sim")]
pub mod vec;

#[cfg(feature = "sim")]
pub use ::alloc::vec::Vec;

/// Memory.
pub mod alloc {
    /// What a call that asks for memory is given in the source: here the global allocator serves, which needs no value.
    pub type Global = ();
}
