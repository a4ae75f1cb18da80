// SPDX-License-Identifier: MIT OR Apache-2.0
//! What the played flash with error correction holds of a log: two units for each slot, and behind all of them the checks of each.

/// The checks of a unit: each bit that is clear turns some of eight, the n-th bit those of the n-th number that has an odd count of
/// bits, three or more.
fn checks(unit: [u8; 8]) -> u8 {
    let columns = (0..=255u8).filter(|column| column.count_ones() % 2 == 1 && column.count_ones() > 1);
    let clear = columns.zip(0..64).filter(|(_, bit)| u64::from_le_bytes(unit) >> bit & 1 == 0);
    clear.fold(0xff, |checks, (column, _)| checks ^ column)
}

/// The unit behind that of a slot (docs/log.md, "Flash with error correction").
fn second(slot: [u8; 8]) -> [u8; 8] {
    let word = u32::from_le_bytes(std::array::from_fn(|at| slot[at]));
    let check = word ^ word.rotate_left(8);
    let both = u64::from(check) | u64::from(!check) << 32;
    if slot == [0xff; 8] { slot } else { both.to_le_bytes() }
}

/// The bytes of the flash in which the log has these slots.
pub fn units(slots: &[u8]) -> Vec<u8> {
    let slots = slots.chunks_exact(8).map(|slot| std::array::from_fn(|at| slot[at]));
    let units: Vec<[u8; 8]> = slots.flat_map(|slot| [slot, second(slot)]).collect();
    let checks = units.iter().map(|unit| [checks(*unit), 0xff, 0xff, 0xff]);
    [units.concat(), checks.collect::<Vec<_>>().concat()].concat()
}
