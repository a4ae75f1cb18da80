// SPDX-License-Identifier: MIT OR Apache-2.0
//! Targets of libFuzzer: each file of `bin` is one. `tools/fuzz` builds and runs them.

/// Makes a function over bytes the target of a program, whose `main` is libFuzzer's.
#[macro_export]
macro_rules! target {
    ($body:path) => {
        #[unsafe(no_mangle)]
        extern "C" fn LLVMFuzzerTestOneInput(bytes: *const u8, count: usize) -> i32 {
            // SAFETY: libFuzzer lends so many bytes for this call; the pointer may be null where there are none.
            let bytes = if count == 0 { &[] } else { unsafe { core::slice::from_raw_parts(bytes, count) } };
            $body(bytes);
            0
        }
    };
}

/// Bytes that are taken one by one; zeros behind the last.
#[derive(Debug)]
pub struct Bytes<'a>(pub &'a [u8]);

impl<'a> Bytes<'a> {
    /// Takes the next byte.
    pub fn next_byte(&mut self) -> u8 {
        let (first, rest) = self.0.split_first().unwrap_or((&0, &[]));
        self.0 = rest;
        *first
    }

    /// Takes at most so many bytes.
    pub fn take(&mut self, count: usize) -> &'a [u8] {
        let (some, rest) = self.0.split_at(count.min(self.0.len()));
        self.0 = rest;
        some
    }

    /// Takes so many bytes, with zeros for those that are not there.
    pub fn array<const N: usize>(&mut self) -> [u8; N] {
        core::array::from_fn(|_| self.next_byte())
    }

    pub fn is_empty(&self) -> bool {
        self.0.is_empty()
    }
}
