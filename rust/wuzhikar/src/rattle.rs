//! Stand-ins for the parts of Rattle's library that the source calls. Written by hand: tested, not proved.
//! **Not part of the stable interface.**

pub mod circular_buffer;

/// Memory. The keyboard has its room in itself: nothing is asked for, and nothing is refused.
pub mod alloc {
    /// What a call that asks for memory is given in the source.
    pub type Global = ();

    /// A request for memory that was refused: there is no such value.
    pub type AllocError = core::convert::Infallible;
}
