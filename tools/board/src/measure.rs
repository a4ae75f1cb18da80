// SPDX-License-Identifier: MIT OR Apache-2.0
//! What calls take: the most instructions between two looks at the line, and the deepest stack.

use crate::Shop;
use crate::chip::{Chip, Lost, Order};
use crate::host::{self, Answer};
use crate::model::{self, Command, Numbers};

/// The equal samples in a row that change a key.
const SAMPLES: usize = 5;

struct Bench {
    chip: Chip,
    stack: u64,
}

impl Bench {
    /// Prints what the longest call took of an act, behind a start on these slots and what was done first.
    fn row(
        &mut self,
        what: &str,
        slots: &[u8],
        first: impl Fn(&mut Chip) -> Answer<()>,
        act: impl Fn(&mut Chip) -> Answer<()>,
    ) -> Answer<()> {
        let chip = &mut self.chip;
        chip.put(slots);
        chip.power(Order::NEVER)?;
        host::start(chip)?;
        first(chip)?;
        chip.order(Order::NEVER)?;
        act(chip)?;
        chip.rests()?; // (the last call's count is told at the next look)
        chip.cut()?;
        println!("{what}\t{}", chip.told.longest);
        self.stack = self.stack.max(chip.told.stack);
        Ok(())
    }

    /// The same of a start, up to the first look at the line.
    fn start(&mut self, what: &str, slots: &[u8]) -> Answer<()> {
        let chip = &mut self.chip;
        chip.put(slots);
        chip.power(Order::NEVER)?;
        host::start(chip)?;
        chip.cut()?;
        println!("start, {what}\t{}", chip.told.start);
        self.stack = self.stack.max(chip.told.stack);
        Ok(())
    }
}

fn nothing(_: &mut Chip) -> Answer<()> {
    Ok(())
}

fn scans(chip: &mut Chip, keys: &[u8], count: usize) -> Answer<()> {
    (0..count).try_for_each(|_| host::scan(chip, keys).map(drop))
}

fn command(chip: &mut Chip) -> Answer<()> {
    host::command(chip, Command { operation: 1, layer: 0, key: 0, code: 5 }).map(drop)
}

pub fn run(shop: &Shop) -> Answer<()> {
    let (mut bench, mut numbers) = (Bench { chip: shop.chip()?, stack: 0 }, Numbers::new(5));
    let mut filled = |records, every, used| model::filled(records, every, used, &mut numbers, &model::default_keymap()).0;
    let blank = vec![0xff; crate::chip::LOG];
    let [three, entries] = [filled(3, false, false), filled(384, true, false)];
    let [full, used] = [filled(511, true, false), filled(511, true, true)];
    bench.start("blank flash", &blank)?;
    bench.start("3 records", &three)?;
    bench.start("a full page beside a used one", &used)?;
    bench.row("a scan without an edge", &blank, nothing, |chip| scans(chip, &[], 20))?;
    bench.row("a scan that presses a key", &blank, host::enumerate, |chip| scans(chip, &[0], SAMPLES))?;
    bench.row(
        "a poll with its report",
        &blank,
        |chip| host::enumerate(chip).and_then(|()| scans(chip, &[0], SAMPLES)),
        |chip| match host::poll(chip)? {
            report if report.is_empty() => Err(Lost::Dead("a poll without its report".to_owned())),
            _ => Ok(()),
        },
    )?;
    bench.row("address and configuration", &blank, nothing, host::enumerate)?;
    bench.row("the product's name, read whole", &blank, nothing, host::name)?;
    bench.row("a command with room, on 384 records", &entries, nothing, command)?;
    bench.row("a compaction of 384 copies, the next page blank", &full, nothing, command)?;
    bench.row("a compaction of 384 copies, the next page used", &used, nothing, command)?;
    println!("the deepest stack, in bytes\t{}", bench.stack);
    Ok(())
}
