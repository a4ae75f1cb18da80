// SPDX-License-Identifier: MIT OR Apache-2.0
//! Random sessions, each with one cut at a random place.

use crate::Shop;
use crate::chip::{Chip, LOG, Lost, Order};
use crate::host::{self, Answer};
use crate::model::{self, Command, Keymap, Numbers};
use crate::silence::Waits;
use std::time::Instant;

/// So many requests a session takes at most until its cut, which comes by its 850th operation or its tick 3,000,000.
const REQUESTS: u32 = 100_000;

/// What was seen.
#[derive(Default)]
struct Counts {
    cuts: u64,
    inside: [u64; 3],
    in_start: u64,
    in_command: u64,
    old: u64,
    new: u64,
    confirmed: u64,
    refused: u64,
    reports: u64,
    entries: u64,
    erases: u64,
    stack: u64,
    damaged: u64,
}

/// The host and what it was told.
struct Session<'d> {
    defaults: &'d Keymap,
    keymap: Keymap,
    /// The command whose end the host was not told.
    pending: Option<Command>,
    /// Whether the next start tells what the keymap is.
    unknown: bool,
    started: bool,
}

impl Session<'_> {
    fn on(defaults: &Keymap, keymap: Keymap, unknown: bool) -> Session<'_> {
        Session { defaults, keymap, pending: None, unknown, started: false }
    }

    /// A start, and requests until the power goes, which is `Cut`. It goes as ordered, counted from the end of the start where that
    /// is `later`.
    fn run(&mut self, chip: &mut Chip, numbers: &mut Numbers, counts: &mut Counts, order: Order, later: bool) -> Answer<()> {
        self.started = false;
        chip.power(if later { Order::NEVER } else { order })?;
        host::start(chip)?;
        self.started = true;
        if later {
            chip.order(order)?;
        }
        self.compare(chip, counts)?;
        host::enumerate(chip)?;
        let mut refused = 0;
        self.press(chip, numbers, counts)?;
        for request in 0.. {
            if refused == 20 {
                break;
            }
            if request == REQUESTS {
                return Err(Lost::Dead(format!("no cut in {REQUESTS} requests, though one was ordered")));
            }
            match numbers.below(8) {
                0 => self.press(chip, numbers, counts)?,
                1 => self.read(chip, numbers, counts)?,
                _ => refused += u32::from(!self.command(chip, numbers.command(), counts)?),
            }
        }
        // A keyboard that refuses all changes makes no operation to be cut.
        chip.cut()?;
        Ok(())
    }

    /// The keymap that the chip found is the one that the host was told, but for the command that the cut caught.
    fn compare(&mut self, chip: &mut Chip, counts: &mut Counts) -> Answer<()> {
        let found = host::keymap(chip)?;
        let (unknown, pending) = (std::mem::take(&mut self.unknown), self.pending.take());
        let new = pending.is_some_and(|command| found == model::apply(self.keymap, command, self.defaults));
        if !unknown && found != self.keymap && !new {
            return Err(Lost::Dead(format!("LOST: {}", model::difference(&found, &self.keymap, pending))));
        }
        counts.new += u64::from(new && found != self.keymap);
        counts.old += u64::from(pending.is_some() && found == self.keymap);
        self.keymap = found;
        Ok(())
    }

    fn press(&mut self, chip: &mut Chip, numbers: &mut Numbers, counts: &mut Counts) -> Answer<()> {
        counts.reports += 2 * u64::from(host::press(chip, &self.keymap, numbers.below(96) as u8)?);
        Ok(())
    }

    /// An entry, as a driver on a host reads it.
    fn read(&mut self, chip: &mut Chip, numbers: &mut Numbers, counts: &mut Counts) -> Answer<()> {
        let (layer, key) = (numbers.below(4) as u8, numbers.below(96) as u8);
        let wanted = self.keymap[usize::from(layer)][usize::from(key)];
        let found = host::entry(chip, layer, key)?;
        counts.entries += 1;
        if found == Some(wanted) {
            return Ok(());
        }
        Err(Lost::Dead(format!("WRONG: entry ({layer}, {key}) is read as {found:04x?}, not {wanted:04x}")))
    }

    /// Whether the host was told that a command is stored.
    fn command(&mut self, chip: &mut Chip, command: Command, counts: &mut Counts) -> Answer<bool> {
        self.pending = Some(command);
        let stored = host::command(chip, command)?;
        self.pending = None;
        if stored {
            counts.confirmed += 1;
            self.keymap = model::apply(self.keymap, command, self.defaults);
        } else {
            counts.refused += 1;
        }
        Ok(stored)
    }
}

/// A flash that is put into the chip: a page that is nearly full, so that a compaction is near, or blank pages; one of eight of them
/// is damaged, whose keymap the chip then tells.
fn another<'d>(chip: &mut Chip, numbers: &mut Numbers, counts: &mut Counts, defaults: &'d Keymap) -> Session<'d> {
    let records = if numbers.below(8) == 0 { 0 } else { 511 - numbers.below(4) as usize };
    let (every, used) = (numbers.below(2) == 0, numbers.below(4) > 0);
    let (mut bytes, keymap) = model::filled(records, every, used, numbers, defaults);
    if records == 0 {
        bytes.fill(0xff);
    }
    // What something else has left in a flash with error correction is outside of the guarantee.
    let damaged = numbers.below(8) == 0 && !chip.corrects();
    for _ in 0..if damaged { 1 + numbers.below(40) } else { 0 } {
        let at = if numbers.below(4) == 0 { numbers.below(8) } else { numbers.below(LOG as u64 / 2) } as usize;
        bytes[LOG / 2 * numbers.below(2) as usize + at] = numbers.draw() as u8;
    }
    counts.damaged += u64::from(damaged);
    chip.put(&bytes);
    Session::on(defaults, keymap, damaged)
}

/// Where the power goes next: at any tick, or inside any operation, the more often the earlier. Where a compaction is near, inside it.
fn order(numbers: &mut Numbers, near: bool) -> Order {
    let (mut tick, mut operation) = (u64::MAX, 0);
    if numbers.below(2) == 0 {
        let end = if near { 3_000_000 } else { [6_000, 200_000, 300_000][numbers.below(3) as usize] };
        tick = numbers.below(end);
    } else {
        let end = if near { 850 } else { [2, 6, 16][numbers.below(3) as usize] };
        operation = 1 + numbers.below(end);
    }
    // Nothing, all, a share that is drawn, or few of the bits undone: a torn word that passes for another lacks a bit or two.
    let undone = [0, 256, 257, 257, 8, 16, 24, 250][numbers.below(8) as usize];
    Order { tick, operation, seed: numbers.draw(), undone, ..Order::NEVER }
}

/// The sessions, on a firmware with these default codes.
pub fn run(shop: &Shop, cuts: u64, seed: u64, defaults: &Keymap) -> Answer<()> {
    let (mut chip, mut numbers, mut counts) = (shop.chip()?, Numbers::new(seed), Counts::default());
    let mut session = Session::on(defaults, *defaults, false);
    let began = Instant::now();
    while counts.cuts < cuts {
        let near = numbers.below(8) == 0;
        if near {
            session = another(&mut chip, &mut numbers, &mut counts, defaults);
        }
        let order = order(&mut numbers, near);
        // (A start that writes takes longer than all that follows.)
        let later = chip.wavers() && numbers.below(4) > 0;
        match session.run(&mut chip, &mut numbers, &mut counts, order, later) {
            Ok(()) | Err(Lost::Cut) => {}
            Err(Lost::Dead(why)) => return Err(Lost::Dead(format!("after cut {}: {why}", counts.cuts))),
            Err(lost) => return Err(lost),
        }
        chip.keeps_its_bounds().map_err(|lost| match lost {
            Lost::Dead(why) => Lost::Dead(format!("at cut {}: {why}", counts.cuts + 1)),
            lost => lost,
        })?;
        counts.cuts += 1;
        counts.inside[chip.told.inside as usize] += 1;
        counts.in_start += u64::from(!session.started);
        counts.in_command += u64::from(session.started && session.pending.is_some());
        counts.erases += chip.told.erases;
        counts.stack = counts.stack.max(chip.told.stack);
    }
    tell(&counts, began.elapsed().as_secs(), &chip.waits);
    Ok(())
}

fn tell(c: &Counts, seconds: u64, waits: &Waits) {
    println!("{} random cuts in {seconds} s: acknowledged assignments lost 0", c.cuts);
    println!("  between operations {}, inside a program {}, inside an erase {}", c.inside[0], c.inside[1], c.inside[2]);
    println!("  in a start {}, in a command {}, which was found undone {}, done {}", c.in_start, c.in_command, c.old, c.new);
    println!("  confirmed {}, refused {}, entries read {}, reports {}", c.confirmed, c.refused, c.entries, c.reports);
    println!("  erases of 1 KiB {}, damaged flashes {}, stack {} bytes at most", c.erases, c.damaged, c.stack);
    println!("{waits}");
}
