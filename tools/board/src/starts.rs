// SPDX-License-Identifier: MIT OR Apache-2.0
//! A command that is cut inside an operation, and starts that are cut behind it: what a flash whose torn cells waver has to outlive.

use crate::Shop;
use crate::chip::{Chip, Lost, Order};
use crate::host::{self, Answer};
use crate::model::{self, Keymap, Numbers};

/// A cut inside one of so many operations, a number of these.
fn torn(numbers: &mut Numbers, among: &[u64]) -> Order {
    let operations = among[numbers.below(among.len() as u64) as usize];
    let (operation, undone) = (1 + numbers.below(operations), [0, 0, 0, 8, 128, 257][numbers.below(6) as usize]);
    Order { operation, undone, seed: numbers.draw(), ..Order::NEVER }
}

/// Whether the power went, as ordered.
fn is_cut<T>(answer: Answer<T>) -> Answer<bool> {
    match answer {
        Ok(_) => Ok(false),
        Err(Lost::Cut) => Ok(true),
        Err(lost) => Err(lost),
    }
}

/// A start that isn't cut, and the keymap that it found.
fn found(chip: &mut Chip) -> Answer<Keymap> {
    chip.power(Order::NEVER)?;
    host::start(chip)?;
    host::keymap(chip)
}

/// A life: whether the command was cut in it, and whether a start behind it.
fn life(chip: &mut Chip, numbers: &mut Numbers, defaults: &Keymap) -> Answer<[bool; 2]> {
    // The record alone is torn, or any operation of a compaction.
    let (full, command) = (numbers.below(4) == 0, numbers.set());
    let records = if full { 511 } else { numbers.below(4) as usize };
    let (flash, old) = model::filled(records, full, full, numbers, defaults);
    let new = model::apply(old, command, defaults);
    chip.put(&flash);
    found(chip)?;
    chip.order(torn(numbers, if full { &[850] } else { &[2] }))?;
    let mut cut = [is_cut(host::command(chip, command))?, false];
    for _ in 0..numbers.below(8) {
        chip.cut()?;
        chip.power(torn(numbers, if full { &[40, 1200] } else { &[6, 12, 24, 48] }))?;
        cut[1] |= is_cut(host::start(chip))?;
    }
    chip.cut()?;
    let first = found(chip)?;
    if first != old && first != new {
        return Err(Lost::Dead(format!("LOST: {}", model::difference(&first, &old, Some(command)))));
    }
    // The host tries again: what it is told stays from then on.
    if !host::command(chip, command)? {
        return Err(Lost::Dead("REFUSED, the command that was cut".to_owned()));
    }
    for _ in 0..2 {
        chip.cut()?;
        let later = found(chip)?;
        if later != new {
            return Err(Lost::Dead(format!("LOST, confirmed: {}", model::difference(&later, &new, None))));
        }
    }
    chip.cut()?;
    chip.keeps_its_bounds()?;
    Ok(cut)
}

/// So many lives.
pub fn run(shop: &Shop, lives: u64, seed: u64) -> Answer<()> {
    let (mut chip, mut numbers, mut cut) = (shop.chip()?, Numbers::new(seed), [0; 2]);
    for at in 0..lives {
        match life(&mut chip, &mut numbers, &model::default_keymap()) {
            Ok(was_cut) => (0..2).for_each(|what| cut[what] += u64::from(was_cut[what])),
            Err(Lost::Dead(why)) => return Err(Lost::Dead(format!("in life {at}: {why}"))),
            Err(lost) => return Err(lost),
        }
    }
    let [commands, starts] = cut;
    if commands == 0 || starts == 0 {
        return Err(Lost::Dead(format!(
            "in {lives} lives {commands} commands were cut, and starts in {starts}: nothing was tried"
        )));
    }
    println!(
        "{lives} lives, {commands} with a command cut inside an operation, {starts} with starts cut: acknowledged assignments lost 0"
    );
    println!("{}", chip.waits);
    Ok(())
}
