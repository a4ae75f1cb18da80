// SPDX-License-Identifier: MIT OR Apache-2.0
//! A session with one cut, told line by line.

use crate::Shop;
use crate::chip::{Chip, Lost, Order};
use crate::host::{self, Answer};
use crate::model::Command;

fn press(chip: &mut Chip) -> Answer<()> {
    for keys in [&[0][..], &[]] {
        for _ in 0..5 {
            host::scan(chip, keys)?;
        }
        println!("endpoint 1: {:02x?}", &host::poll(chip)?[..4]);
    }
    Ok(())
}

fn power(chip: &mut Chip, order: Order) -> Answer<()> {
    chip.power(order)?;
    host::start(chip)?;
    host::enumerate(chip)?;
    println!("the power comes; the device has an address and is configured");
    press(chip)
}

pub fn run(shop: &Shop) -> Answer<()> {
    let mut chip = shop.chip()?;
    power(&mut chip, Order::NEVER)?;
    let set = |code| Command { operation: 1, layer: 0, key: 0, code };
    println!("key 0 is to be a b; stored: {}", host::command(&mut chip, set(5))?);
    println!("the flash controller is left open: {}", chip.flash_is_open()?);
    println!("key 0 is to be a d, in a read that is given up; stored: {}", host::command_in_a_read(&mut chip, set(7))?);
    println!("key 0 is to be a b; stored: {}", host::command(&mut chip, set(5))?);
    chip.order(Order { operation: 1, undone: 128, ..Order::NEVER })?;
    match host::command(&mut chip, set(6)) {
        Err(Lost::Cut) => println!("key 0 is to be a c; the power goes inside the first word of it, which is torn"),
        other => return Err(Lost::Dead(format!("no cut, {other:?}"))),
    }
    chip.keeps_its_bounds()?;
    power(&mut chip, Order::NEVER)
}

/// Behind a SETUP packet the buffers of endpoint 0 are empty.
pub fn armed(shop: &Shop) -> Answer<()> {
    let mut chip = shop.chip()?;
    chip.power(Order::NEVER)?;
    host::start(&mut chip)?;
    host::enumerate(&mut chip)?;
    let frame = host::token_after_setup(&mut chip)?;
    if frame.kind != b'N' {
        return Err(Lost::Dead(format!("ARMED: behind a SETUP packet endpoint 0 holds {frame:02x?}")));
    }
    println!("endpoint 0 is empty behind a SETUP packet");
    Ok(())
}

/// A host that has no processor for QEMU is no silence of the chip: QEMU is stopped while an answer is owed.
pub fn starved(shop: &Shop) -> Answer<()> {
    let mut chip = shop.chip()?;
    chip.power(Order::NEVER)?;
    host::start(&mut chip)?;
    chip.starve(4)?;
    let stored = host::command(&mut chip, Command { operation: 1, layer: 0, key: 0, code: 5 })?;
    if !stored || !chip.waits.were_long() {
        return Err(Lost::Dead(format!("QEMU was stopped for 4 s; stored: {stored}\n{}", chip.waits)));
    }
    println!("QEMU has no processor for 4 s: an answer is late, and no silence\n{}", chip.waits);
    Ok(())
}
