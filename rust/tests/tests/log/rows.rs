//! Rows over a log and its flash: lines that say what is done and, behind ` = `, what comes of it.
//!
//! ```text
//! put 0 3 20000001 10000005   programs slots from 0/3 on, by words or by 16 digits; mounts the log
//! fill 0 1 511 10000005       programs slots 1 to 511 of page 0; mounts the log
//! append 10000005             or `= ` why it is refused; so `turn`, `copy 10000005`, `seal`
//! step = moved                or idle, committed, failed
//! log = page 0 seq 1, format 2, tail 5, room, busy, wants seal, wants copy, unsound 3
//! mounted = ..                as `log`, of a log that is mounted for this row alone
//! words = 10000005 x 511, 10000006
//! slot 0 1 = 05000010faffffef
//! ```
//!
//! Numbers of pages and slots are decimal, words, sequence numbers and bytes are hexadecimal.

use wuzhikar_log::{Log, NorFlash, SimFlash, Step};
use wuzhikar_tests::{bytes, expect, hex, hex_number, images::good, number, word};

/// A log and its flash.
pub struct Bench {
    pub log: Log,
    pub flash: SimFlash,
}

impl Bench {
    pub fn blank(pages: usize) -> Bench {
        Bench::on(SimFlash::blank(pages).expect("a flash"))
    }

    pub fn on(flash: SimFlash) -> Bench {
        Bench { log: Log::mount(&flash), flash }
    }

    pub fn rows(&mut self, script: &str) {
        expect(script, |ask| self.answer(ask));
    }

    pub fn step(&mut self) -> Step {
        self.log.step(&mut self.flash)
    }

    fn answer(&mut self, ask: &str) -> String {
        match word(ask) {
            ("put", rest) => self.put(rest),
            ("fill", rest) => self.fill(rest),
            ("append", word) => return done(self.log.append(hex_number(word))),
            ("turn", _) => return done(self.log.turn()),
            ("copy", word) => return done(self.log.copy(hex_number(word))),
            ("seal", _) => return done(self.log.end_copies()),
            ("step", _) => return format!("{:?}", self.step()).to_lowercase(),
            ("log", _) => return shown(&self.log),
            ("mounted", _) => return shown(&Log::mount(&self.flash)),
            ("words", _) => return self.words(),
            ("slot", rest) => {
                let (page, slot, _) = place(rest);
                return hex(&self.flash.read_slot(page, slot));
            }
            _ => panic!("no such row: {ask}"),
        }
        String::new()
    }

    /// Programs slots behind the log's back.
    fn put(&mut self, rest: &str) {
        let (page, first, words) = place(rest);
        for (slot, word) in words.split(' ').enumerate() {
            let _done = self.flash.program_slot(page, first + slot, slot_bytes(word));
        }
        self.log = Log::mount(&self.flash);
    }

    fn fill(&mut self, rest: &str) {
        let (page, first, rest) = place(rest);
        let (last, word) = word(rest);
        for slot in first..=number(last) {
            let _done = self.flash.program_slot(page, slot, slot_bytes(word));
        }
        self.log = Log::mount(&self.flash);
    }

    /// The words that a mount finds, equal neighbours as one.
    fn words(&self) -> String {
        let words: Vec<u32> = Log::mount(&self.flash).words(&self.flash).collect();
        let runs = words.chunk_by(|one, other| one == other).map(|run| match run.len() {
            1 => format!("{:x}", run[0]),
            count => format!("{:x} x {count}", run[0]),
        });
        if words.is_empty() { "none".into() } else { runs.collect::<Vec<_>>().join(", ") }
    }
}

/// Nothing where a call was taken, or why it was not.
fn done<E: ToString>(taken: Result<(), E>) -> String {
    taken.err().map(|why| why.to_string()).unwrap_or_default()
}

/// All that a log says of itself.
pub fn shown(log: &Log) -> String {
    let mut all = vec![log.active().map_or("no page".into(), |(page, number)| format!("page {page} seq {number:x}"))];
    all.extend(log.format().map(|format| format!("format {format}")));
    all.extend(log.tail().map(|tail| format!("tail {tail}")));
    let holds = [(log.room(), "room"), (log.busy(), "busy"), (log.wants(), "wants seal"), (log.wants_copy(), "wants copy")];
    all.extend(holds.into_iter().filter(|it| it.0).map(|it| it.1.to_string()));
    all.extend(log.usable().err().map(|unsound| format!("unsound {}", unsound.page)));
    all.join(", ")
}

/// A page, a slot, and what follows them.
fn place(text: &str) -> (usize, usize, &str) {
    let (page, rest) = word(text);
    let (slot, rest) = word(rest);
    (number(page), number(slot), rest)
}

/// The bytes of a slot: a word of eight digits beside its complement, or 16 digits as they stand.
fn slot_bytes(text: &str) -> [u8; 8] {
    if text.len() == 8 { good(hex_number(text)) } else { bytes(text).try_into().expect("eight bytes") }
}
