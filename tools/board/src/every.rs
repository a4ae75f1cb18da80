// SPDX-License-Identifier: MIT OR Apache-2.0
//! One session again and again, cut each time at another place, and what the chip then has.

use crate::Shop;
use crate::chip::{Chip, Lost, Order};
use crate::host::{self, Answer};
use crate::model::{self, Command, Keymap, Numbers};
use std::time::Instant;

/// A flash, what it means, and the command that the host gives.
struct Session {
    flash: Vec<u8>,
    keymap: Keymap,
    command: Command,
}

/// What became of a cut.
struct Outcome {
    /// The host was told that the command is stored.
    told: bool,
    /// The chip has it.
    done: bool,
}

impl Session {
    /// The session up to a cut, and the start behind it. `None`: the session ended before.
    fn cut(&self, chip: &mut Chip, order: Order) -> Answer<Option<Outcome>> {
        chip.put(&self.flash);
        chip.power(order)?;
        let told = match self.run_until_cut(chip) {
            Ok(()) => {
                chip.cut()?;
                return Ok(None);
            }
            Err((told, Lost::Cut)) => told,
            Err((_, lost)) => return Err(lost),
        };
        chip.keeps_its_bounds()?;
        chip.power(Order::NEVER)?;
        host::start(chip)?;
        let found = host::keymap(chip)?;
        let done = found == model::apply(self.keymap, self.command, &model::default_keymap());
        if !done && (told || found != self.keymap) {
            let why = model::difference(&found, &self.keymap, Some(self.command));
            return Err(Lost::Dead(format!("LOST, told {told}, cut at {order:?}: {why}")));
        }
        host::enumerate(chip)?;
        host::press(chip, &found, 0)?;
        chip.cut()?;
        Ok(Some(Outcome { told, done }))
    }

    /// Runs the session to its end. If the power goes before, the error says whether the host was told.
    fn run_until_cut(&self, chip: &mut Chip) -> Result<(), (bool, Lost)> {
        let before = |lost| (false, lost);
        host::start(chip).map_err(before)?;
        let stored = host::command(chip, self.command).map_err(before)?;
        if !stored {
            return Err(before(Lost::Dead("the command is refused".to_string())));
        }
        // What comes behind the confirmation.
        (0..10).try_for_each(|_| host::scan(chip, &[0]).map(drop)).map_err(|lost| (stored, lost))
    }

    /// Cuts at each of these places, all of which the session has to reach.
    fn cut_at_each(&self, shop: &Shop, what: &str, orders: Vec<Order>) -> Answer<Counts> {
        let (wanted, counts) = (orders.len(), self.cut_at_all(shop, what, orders.into_iter())?);
        if counts.cuts as usize != wanted {
            return Err(Lost::Dead(format!("of {wanted} ordered cuts {} were made", counts.cuts)));
        }
        Ok(counts)
    }

    /// Cuts at these places, up to the first that the session does not reach.
    fn cut_at_all(&self, shop: &Shop, what: &str, orders: impl Iterator<Item = Order>) -> Answer<Counts> {
        let (mut chip, began) = (shop.chip()?, Instant::now());
        let mut counts = Counts::default();
        for order in orders {
            let Some(outcome) = self.cut(&mut chip, order)? else { break };
            counts.cuts += 1;
            counts.told += u32::from(outcome.told);
            counts.done += u32::from(outcome.done);
        }
        let Counts { cuts, told, done } = counts;
        let seconds = began.elapsed().as_secs();
        println!("{cuts} cuts at {what} in {seconds} s: behind the confirmation {told}, command found done {done}, lost 0");
        println!("{}", chip.waits);
        Ok(counts)
    }

    /// Returns how many ticks the start takes, and how many ticks and operations the whole session.
    fn length(&self, shop: &Shop, order: Order) -> Answer<(u64, u64, u64)> {
        let mut chip = shop.chip()?;
        chip.put(&self.flash);
        chip.power(order)?;
        host::start(&mut chip)?;
        chip.cut()?;
        let start = chip.told.ticks;
        chip.put(&self.flash);
        chip.power(order)?;
        self.run_until_cut(&mut chip).map_err(|(_, lost)| lost)?;
        chip.cut()?;
        Ok((start, chip.told.ticks, chip.told.operations))
    }
}

/// What became of some cuts.
#[derive(Default)]
struct Counts {
    cuts: u32,
    told: u32,
    done: u32,
}

impl Counts {
    /// The cuts of a whole session are on both sides of its record.
    fn met(self) -> Answer<()> {
        if self.done == 0 || self.done == self.cuts {
            return Err(Lost::Dead(format!("of {} cuts {} behind the record: the session was not met", self.cuts, self.done)));
        }
        Ok(())
    }
}

fn session(records: usize, turns: bool) -> Session {
    let (flash, keymap) = model::filled(records, turns, turns, &mut Numbers::new(9), &model::default_keymap());
    Session { flash, keymap, command: Command { operation: 1, layer: 1, key: 95, code: 5 } }
}

/// A session with one command.
fn with_room() -> Session {
    session(3, false)
}

/// A session whose command makes the log turn over, with an erase.
fn compacting() -> Session {
    session(511, true)
}

/// A program takes four ticks where an instruction takes one, so that some cuts fall into one.
fn tick_order(tick: u64) -> Order {
    Order { tick, takes: [4, 16], undone: 257, seed: tick, ..Order::NEVER }
}

/// Each operation is torn in five ways.
fn operation_orders(operation: u64) -> impl Iterator<Item = Order> {
    [0, 64, 128, 192, 256].into_iter().map(move |undone| Order { operation, undone, seed: operation, ..Order::NEVER })
}

/// Few of a word's bits are left undone: such a word may pass for another.
fn word_orders(word: u64) -> impl Iterator<Item = Order> {
    [8, 16, 24].into_iter().map(move |undone| Order { operation: word, undone, ..Order::NEVER })
}

/// How long the sessions are: the ticks of the one with a command, and the operations of the other.
pub fn lengths(shop: &Shop) -> Answer<()> {
    let (_, ticks, _) = with_room().length(shop, tick_order(u64::MAX))?;
    let (_, _, operations) = compacting().length(shop, Order::NEVER)?;
    println!("{ticks} {operations}");
    Ok(())
}

/// A cut at each so many instructions of the start, and sixteen times as often behind it.
pub fn instructions(shop: &Shop, stride: u64) -> Answer<()> {
    let session = with_room();
    let (start, _, _) = session.length(shop, tick_order(u64::MAX))?;
    let ticks = (1..start).step_by(stride as usize).chain((start..).step_by(stride.div_ceil(16) as usize));
    session.cut_at_all(shop, &format!("every {stride}. instruction of {start}, and more behind"), ticks.map(tick_order))?.met()
}

/// A cut at each so many of these ticks.
pub fn instructions_of(shop: &Shop, stride: u64, from: u64, to: u64) -> Answer<()> {
    let ticks = (from..to).step_by(stride as usize);
    with_room().cut_at_all(shop, &format!("every {stride}. instruction from {from} on"), ticks.map(tick_order)).map(drop)
}

/// A cut in each so many operations, in the first eight, among which the four of the erase are, and in the last four.
pub fn operations(shop: &Shop, stride: u64) -> Answer<()> {
    let (_, _, all) = compacting().length(shop, Order::NEVER)?;
    let places = (1..=all).filter(|at| *at <= 8 || at % stride == 0 || at + 4 > all);
    compacting()
        .cut_at_each(
            shop,
            &format!("every {stride}. operation of {all} of a compaction"),
            places.flat_map(operation_orders).collect(),
        )?
        .met()
}

/// A cut in each of these operations.
pub fn operations_of(shop: &Shop, from: u64, to: u64) -> Answer<()> {
    compacting().cut_at_all(shop, &format!("each operation from {from} on"), (from..to).flat_map(operation_orders)).map(drop)
}

/// So many tears of each word of a record, in three ways, drawn from seeds that follow this one.
pub fn words(shop: &Shop, tears: u64, seed: u64) -> Answer<()> {
    // With error correction two units are programmed, each with its checks. They are the session's last operations.
    let count = if shop.chip()?.corrects() { 6 } else { 2 };
    let (_, _, all) = with_room().length(shop, Order::NEVER)?;
    let orders = (all + 1 - count..=all).flat_map(word_orders);
    let seeded = orders.flat_map(|order| (seed..seed + tears).map(move |seed| Order { seed, ..order }));
    with_room().cut_at_each(shop, "the words of a record", seeded.collect())?.met()
}
