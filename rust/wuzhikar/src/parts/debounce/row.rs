// Exported from crates/debounce/src/row.rt by bin/export-rust. Edit that file instead.
//! Two rows of 16 keys as one word, a bit of each word for each key: the first row in the low half.

/// What is kept of two rows. How many of the latest samples of a key are unlike its value, 0 to 4, stands in
/// three bits as 000, 100, 110, 111 and 011, the first bit first.
#[derive(Clone, Copy)]
pub(crate) struct Row {
    pub(crate) first: u32,
    pub(crate) second: u32,
    pub(crate) third: u32,
    /// The keys that are down.
    pub(crate) down: u32,
}

/// How many of the latest samples of each key of two rows are equal, counted to five, in binary.
#[derive(Clone, Copy)]
pub(crate) struct Count {
    pub(crate) ones: u32,
    pub(crate) twos: u32,
    pub(crate) fours: u32,
}

impl Row {
    /// These rows after one more sample of their keys. A sample like the value starts the count again at
    /// none, and the fifth in a row that is unlike it changes the value.
    #[inline(always)]
    pub(crate) fn sampled(self, sample: u32) -> Row {
        let unlike = sample ^ self.down;
        let second = unlike & self.first;
        let fifth = unlike & self.second & !self.first;
        Row {
            first: unlike & !self.third,
            second,
            third: second & self.second,
            down: self.down ^ fifth,
        }
    }
}

impl Count {
    /// The counts after one more sample, which starts them again at one where it is not as the latest.
    pub(crate) fn sampled(self, latest: u32, sample: u32) -> Count {
        let changed = sample ^ latest;
        Count {
            ones: !self.ones | self.fours | changed,
            twos: (self.twos ^ self.ones) & !self.fours & !changed,
            fours: (self.fours | (self.twos & self.ones)) & !changed,
        }
    }
}

/// A pair of these rows as a word: keys 32 * pair to 32 * pair + 31.
#[inline(always)]
pub(crate) fn joined(rows: &[u16; 6], pair: usize) -> u32 {
    let row = 2 * pair as u8;
    rows[row as usize] as u32 + 0x1_0000 * rows[(row + 1) as usize] as u32
}

/// The rows of three pairs.
#[inline(always)]
pub(crate) fn parts(first: u32, second: u32, third: u32) -> [u16; 6] {
    [
        (first % 0x1_0000) as u16,
        (first / 0x1_0000) as u16,
        (second % 0x1_0000) as u16,
        (second / 0x1_0000) as u16,
        (third % 0x1_0000) as u16,
        (third / 0x1_0000) as u16,
    ]
}
