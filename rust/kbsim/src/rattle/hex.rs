//! Hex digits, two a byte, in either case: the crate `hex`, whose memory may be refused.

use super::alloc::Global;
use super::{Vec, vec};

pub use ::hex::decode_to_slice;

/// Why digits say no bytes.
#[derive(Clone, Copy, Debug, PartialEq)]
pub enum FromHexError {
    /// The digits say none.
    Digits(::hex::FromHexError),
    /// There is no memory for the bytes.
    OutOfMemory,
}

/// Reading digits, for arrays of any length: the crate has it for some lengths alone.
pub trait FromHex: Sized {
    fn from_hex(digits: &[u8]) -> Result<Self, ::hex::FromHexError>;
}

impl<const N: usize> FromHex for [u8; N] {
    fn from_hex(digits: &[u8]) -> Result<[u8; N], ::hex::FromHexError> {
        let mut bytes = [0; N];
        decode_to_slice(digits, &mut bytes)?;
        Ok(bytes)
    }
}

/// The bytes of these digits.
pub fn decode(alloc: Global, digits: &[u8]) -> Result<Vec<u8>, FromHexError> {
    let mut bytes = vec::of(alloc, 0, digits.len() / 2).map_err(|_| FromHexError::OutOfMemory)?;
    decode_to_slice(digits, &mut bytes).map_err(FromHexError::Digits)?;
    Ok(bytes)
}
