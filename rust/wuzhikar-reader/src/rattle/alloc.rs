//! Memory: that of the global allocator, which may refuse a growth.

/// What a call that asks for memory is given in the source: here the global allocator serves, which needs no value.
pub type Global = ();

/// A growth was refused: there is no memory for it.
#[derive(Clone, Copy, Debug, PartialEq, Eq)]
pub struct AllocError;

impl core::fmt::Display for AllocError {
    fn fmt(&self, f: &mut core::fmt::Formatter<'_>) -> core::fmt::Result {
        f.write_str("out of memory")
    }
}

impl core::error::Error for AllocError {}

/// Makes an `AllocError` of the error of a call that can't fail.
impl From<core::convert::Infallible> for AllocError {
    fn from(never: core::convert::Infallible) -> AllocError {
        match never {}
    }
}

/// Makes an `AllocError` of std's error of a refused growth.
impl From<::alloc::collections::TryReserveError> for AllocError {
    fn from(_: ::alloc::collections::TryReserveError) -> AllocError {
        AllocError
    }
}
