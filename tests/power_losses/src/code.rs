// SPDX-License-Identifier: MIT OR Apache-2.0
//! Codes that correct one bit and tell two, as the flashes of many chips keep: of 8 bytes with 8 check bits, of 16 with 9, of 32
//! with 10. An erased unit, all of whose cells are set, is FFh.

/// A code for units of some bytes: which check bits each clear bit of data turns (Hsiao 1970: each bit of data turns an odd
/// number, 3 or more, no two the same).
#[derive(Debug)]
pub struct Code {
    /// The check bits.
    all: u16,
    /// What a byte turns, by its place and its clear bits.
    turns: Vec<[u16; 256]>,
    /// The bit of data that turns just these check bits, and for a check bit alone a number past the data.
    bit_of: Vec<Option<usize>>,
}

/// What the cells of a unit read as.
#[derive(Clone, Copy, Debug, PartialEq, Eq)]
pub enum Read {
    /// The data as it stands.
    Clean,
    /// The data with one bit turned, or as it stands where the wrong bit is one of the check: past the data.
    Corrected(usize),
    /// An error that can't be corrected.
    Error,
}

impl Code {
    /// The code of units of `bytes` bytes, up to 32.
    pub fn for_bytes(bytes: usize) -> Code {
        let checks = if bytes <= 8 {
            8
        } else if bytes <= 16 {
            9
        } else {
            10
        };
        let columns: Vec<u16> = (1..1_u16 << checks).filter(|c| c.count_ones() % 2 == 1 && c.count_ones() > 1).collect();
        let mut bit_of = vec![None; 1 << checks];
        for (bit, &column) in columns.iter().take(8 * bytes).enumerate() {
            bit_of[usize::from(column)] = Some(bit);
        }
        for check in 0..checks {
            bit_of[1 << check] = Some(8 * bytes + check);
        }
        let turned = |place: usize, clear: usize| {
            (0..8).filter(|bit| clear >> bit & 1 == 1).fold(0, |turned, bit| turned ^ columns[8 * place + bit])
        };
        let turns = (0..bytes).map(|place| std::array::from_fn(|clear| turned(place, clear))).collect();
        Code { all: (1 << checks) - 1, turns, bit_of }
    }

    /// The check bits, all of them set.
    pub fn erased(&self) -> u16 {
        self.all
    }

    /// The check bits of these bytes.
    pub fn check(&self, data: &[u8]) -> u16 {
        let turned = data.iter().zip(&self.turns).fold(0, |turned, (byte, turns)| turned ^ turns[usize::from(!byte)]);
        self.all ^ turned
    }

    /// What these cells read as.
    pub fn read(&self, data: &[u8], check: u16) -> Read {
        let wrong = self.check(data) ^ check;
        if wrong == 0 {
            return Read::Clean;
        }
        match self.bit_of[usize::from(wrong)] {
            Some(bit) => Read::Corrected(bit),
            None => Read::Error,
        }
    }
}

#[cfg(test)]
mod tests {
    use super::*;
    use crate::random::Random;

    /// A unit of random bytes with its check, of which some cells are then turned.
    fn turned(code: &Code, data: &[u8], cells: &[usize]) -> (Vec<u8>, u16) {
        let (mut now, mut check) = (data.to_vec(), code.check(data));
        for &cell in cells {
            match now.get_mut(cell / 8) {
                Some(byte) => *byte ^= 1 << (cell % 8),
                None => check ^= 1 << (cell - 8 * data.len()),
            }
        }
        (now, check)
    }

    #[test]
    fn one_cell_is_corrected_and_two_are_reported() {
        let mut random = Random::from_seed(3);
        for (bytes, checks) in [(8, 8), (16, 9), (32, 10)] {
            let code = Code::for_bytes(bytes);
            let data: Vec<u8> = (0..bytes).map(|_| random.next() as u8).collect();
            assert_eq!(code.read(&data, code.check(&data)), Read::Clean);
            for one in 0..8 * bytes + checks {
                let (now, check) = turned(&code, &data, &[one]);
                assert_eq!(code.read(&now, check), Read::Corrected(one));
                for two in 0..one {
                    let (now, check) = turned(&code, &data, &[one, two]);
                    assert_eq!(code.read(&now, check), Read::Error);
                }
            }
        }
    }

    #[test]
    fn an_erased_unit_is_clean() {
        for bytes in [8, 16, 32] {
            let code = Code::for_bytes(bytes);
            assert_eq!(code.read(&vec![0xFF; bytes], code.erased()), Read::Clean);
        }
    }
}
