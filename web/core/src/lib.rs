//! The exported keyboard on its simulated flash, and the exported reader of report descriptors, as a WebAssembly module.
//!
//! An instance of the module is one device or one report descriptor: the page makes a new instance for each, so a copy of an
//! instance's memory is a copy of the device. Bytes go in and out through one buffer, at [`buffer`]; every other call takes
//! and answers numbers. The calls of the device stand in [`device`], those of the reader in [`reader`] and [`texts`].
//!
//! Written by hand: tested, not proved. `unsafe` stands in [`memory`] alone, beside the names that are exported.
#![cfg_attr(target_arch = "wasm32", no_std)]
#![deny(unsafe_op_in_unsafe_fn)]

extern crate alloc;

pub mod cells;
pub mod codes;
pub mod device;
pub mod flash;
pub mod memory;
pub mod reader;
pub mod texts;

use memory::Kept;

/// Room for the image of a flash of 8 pages, which is the most that a call takes or answers.
pub const ROOM: usize = 8 * 4096;

/// The bytes that go in and out.
pub type Buffer = [u8; ROOM];

/// What a call answers where the instance holds nothing of its kind, or where a number of it is out of its range.
pub const REFUSED: i32 = -2;

pub(crate) static BUFFER: Kept<Buffer> = Kept::new([0; ROOM]);

/// Where the buffer of [`ROOM`] bytes stands in memory.
#[unsafe(no_mangle)]
pub extern "C" fn buffer() -> *const u8 {
    BUFFER.with(|buffer| buffer.as_ptr())
}

/// Writes bytes at the front of the buffer, as far as it has room; how many bytes there are.
pub(crate) fn written(bytes: &[u8], buffer: &mut Buffer) -> i32 {
    for (place, byte) in buffer.iter_mut().zip(bytes) {
        *place = *byte;
    }
    bytes.len() as i32
}
