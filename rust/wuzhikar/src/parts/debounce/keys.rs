// Exported from crates/debounce/src/keys.rt by bin/export-rust. Edit that file instead.
//! An iterator over the keys of a scan.

/// The numbers of the keys of a scan that are left, in rising order.
#[derive(Debug)]
pub struct Keys {
    /// The keys that are left, 32 to a word.
    left: [u32; 3],
}

impl Keys {
    /// The keys of these words.
    #[inline(always)]
    pub(crate) fn of(left: [u32; 3]) -> Keys {
        Keys { left }
    }
}

impl Iterator for Keys {
    type Item = u8;

    fn next(&mut self) -> Option<u8> {
        for word in 0..3usize {
            let set = self.left[word];
            if set != 0 {
                let column = set.trailing_zeros() as u8;
                self.left[word] = set & !(1 << column);
                return Some(32 * word as u8 + column);
            }
        }
        None
    }
}
