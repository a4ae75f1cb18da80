// SPDX-License-Identifier: MIT OR Apache-2.0

//! The wire of a controller whose registers are played, and the host on its other end.

use super::host::{Act, Host, Numbers, begins_endpoint_1, data, is_conforming_command, sets_protocol};
use crate::Endpoint1;
use std::cell::RefCell;
use std::collections::{HashMap, VecDeque};
use std::fmt;

/// SET_FEATURE of the device's remote wakeup (USB 2.0 section 9.4.9).
pub(super) const ENABLE_WAKEUP: [u8; 8] = [0, 3, 1, 0, 0, 0, 0, 0];

/// SET_FEATURE of endpoint 1's halt.
pub(super) const HALT: [u8; 8] = [2, 3, 0, 0, 0x81, 0, 0, 0];

/// A reset lasts 10 ms, in which the driver makes so many accesses or more (USB 2.0 section 7.1.7.5).
const RESET_ACCESSES: usize = 200;

/// So many tokens are told where a test fails.
const TOLD: usize = 20;

/// What tokens are called.
pub(super) const IN: [&str; 2] = ["IN of endpoint 0", "IN of endpoint 1"];
pub(super) const OUT: [&str; 2] = ["OUT DATA0", "OUT DATA1"];

/// What a token or a packet is answered.
#[derive(Clone, Debug, PartialEq, Eq)]
pub enum Answer {
    /// Nothing, as of an endpoint that is off.
    Nothing,
    /// NAK.
    Nak,
    /// STALL.
    Stall,
    /// ACK.
    Ack,
    /// A packet with this data toggle (`true` for DATA1).
    Packet(bool, Vec<u8>),
}

/// Registers that are played, from the host's side. They begin as the controller starts.
pub trait Wire {
    /// Takes a SETUP packet of endpoint 0, and returns whether it is acknowledged.
    fn setup(&mut self, packet: [u8; 8]) -> bool;

    /// Takes an OUT packet of endpoint 0 with this data toggle.
    fn out(&mut self, toggle: bool, packet: &[u8]) -> Answer;

    /// Answers an IN token of endpoint 0 or 1.
    fn input(&mut self, endpoint: usize) -> Answer;

    /// Takes the acknowledgement of the packet that `input` answered.
    fn acknowledged(&mut self, endpoint: usize);

    /// Takes a reset of the bus.
    fn reset(&mut self);

    /// Takes a suspend of the bus.
    fn suspend(&mut self);

    /// Takes the end of a suspend.
    fn resume(&mut self);

    /// Returns the address that the controller answers to.
    fn address(&self) -> u8;

    /// Returns whether the device has signalled K, for as long as it should, since this was asked before.
    fn wakes(&mut self) -> bool;
}

/// What a host met, so that the histories are seen to hold it.
#[derive(Clone, Copy, Debug, Default)]
pub(super) struct Counts {
    pub(super) confirmed: usize,
    pub(super) reports: usize,
    pub(super) stalls: usize,
    /// Packets that came again on either endpoint, and OUT packets that went again.
    pub(super) again: [usize; 3],
    pub(super) resets: usize,
    pub(super) suspends: usize,
    pub(super) wakes: usize,
}

/// What was on the bus, its answer, and whether the acknowledgement after that is lost.
#[derive(Debug, PartialEq)]
struct Token(&'static str, Option<Vec<u8>>, Answer, bool);

impl fmt::Display for Token {
    fn fmt(&self, f: &mut fmt::Formatter<'_>) -> fmt::Result {
        let Token(what, bytes, answer, is_lost) = self;
        match bytes {
            Some(bytes) => write!(f, "{what} {bytes:02x?}: "),
            None => write!(f, "{what}: "),
        }?;
        match answer {
            Answer::Packet(toggle, packet) => write!(f, "DATA{} {packet:02x?}", u8::from(*toggle)),
            other => write!(f, "{other:?}"),
        }?;
        f.write_str(if *is_lost { ", and the acknowledgement is lost" } else { "" })
    }
}

/// The host, and what it knows.
#[derive(Debug)]
pub(super) struct Line {
    seed: u64,
    pub(super) numbers: Numbers,
    pub(super) host: Host,
    /// Nothing happens by itself, and no acknowledgement is lost.
    pub(super) quiet: bool,
    /// The toggles that it wants or sends next: IN, OUT, and endpoint 1.
    toggles: [bool; 3],
    sent_again: bool,
    pub(super) is_suspended: bool,
    /// The bytes of a packet of endpoint 1, and the packets of a report so far.
    size: usize,
    partial: Vec<u8>,
    /// Whether the boot protocol is set, where the host knows it.
    is_boot: Option<bool>,
    /// What endpoint 1 is, where the host knows it.
    endpoint_1: Option<Endpoint1>,
    /// The newest report of each kind, by its ID and its length, since the host forgot.
    pub(super) known: HashMap<(u8, usize), Vec<u8>>,
    /// The commands that it saw the end of, and that were not looked at.
    pub(super) confirmed: Vec<Vec<u8>>,
    /// What the next write sends, if not any data.
    pub(super) sends: Option<Vec<u8>>,
    /// What the last transfer read.
    pub(super) read: Vec<u8>,
    pub(super) counts: Counts,
    /// The last tokens, and how often each came.
    told: VecDeque<(Token, usize)>,
}

impl fmt::Display for Line {
    fn fmt(&self, f: &mut fmt::Formatter<'_>) -> fmt::Result {
        write!(f, "seed {}; the last on the bus:", self.seed)?;
        self.told.iter().try_for_each(|(token, times)| match times {
            1 => write!(f, "\n  {token}"),
            _ => write!(f, "\n  {token}, {times} times"),
        })
    }
}

impl Line {
    fn new(seed: u64, size: usize) -> Line {
        let mut numbers = Numbers(seed.wrapping_mul(0x9e37_79b9_7f4a_7c15));
        numbers.below(2);
        Line {
            seed,
            numbers,
            host: Host::new(true, size),
            quiet: false,
            toggles: [false; 3],
            sent_again: false,
            is_suspended: false,
            size,
            partial: Vec::new(),
            is_boot: Some(false),
            endpoint_1: Some(Endpoint1::Off),
            known: HashMap::new(),
            confirmed: Vec::new(),
            sends: None,
            read: Vec::new(),
            counts: Counts::default(),
            told: VecDeque::new(),
        }
    }

    pub(super) fn tell(&mut self, what: &'static str, bytes: Option<&[u8]>, answer: Answer, is_lost: bool) {
        let token = Token(what, bytes.map(<[u8]>::to_vec), answer, is_lost);
        match self.told.back_mut() {
            Some((last, times)) if *last == token => return *times += 1,
            _ => self.told.push_back((token, 1)),
        }
        if self.told.len() > TOLD {
            self.told.pop_front();
        }
    }

    /// A token or a packet, a reset, or suspend and resume. Between these two the device may wake the host.
    fn go_on(&mut self, wire: &mut dyn Wire) {
        if self.is_suspended {
            let wakes = wire.wakes();
            self.counts.wakes += usize::from(wakes);
            if wakes || self.numbers.one_of(40) {
                self.resumes(wire);
            }
        } else if self.numbers.one_of(150) {
            self.suspends(wire);
        } else {
            let act = match self.host.next(&mut self.numbers) {
                Act::Setup(_) if self.numbers.one_of(6) => Act::Setup(ENABLE_WAKEUP),
                act => act,
            };
            self.act(act, wire);
        }
    }

    fn suspends(&mut self, wire: &mut dyn Wire) {
        self.is_suspended = true;
        self.counts.suspends += 1;
        wire.suspend();
        self.tell("suspend", None, Answer::Nothing, false);
    }

    fn resumes(&mut self, wire: &mut dyn Wire) {
        self.is_suspended = false;
        wire.resume();
        self.tell("resume", None, Answer::Nothing, false);
    }

    fn act(&mut self, act: Act, wire: &mut dyn Wire) {
        match act {
            Act::Reset => self.resets(wire),
            Act::Setup(packet) => {
                let is_taken = wire.setup(packet);
                self.tell("SETUP", Some(&packet), if is_taken { Answer::Ack } else { Answer::Nothing }, false);
                if is_taken {
                    self.begins(packet);
                }
            }
            Act::Out(packet) => self.output(&packet, wire),
            Act::In => self.input(0, wire),
            Act::Poll => self.input(1, wire),
        }
    }

    fn resets(&mut self, wire: &mut dyn Wire) {
        wire.reset();
        self.tell("reset", None, Answer::Nothing, false);
        self.toggles = [false; 3];
        self.known.clear();
        self.partial.clear();
        (self.is_boot, self.endpoint_1) = (Some(false), Some(Endpoint1::Off));
        self.host.stalled();
        self.counts.resets += 1;
    }

    /// A transfer begins. What it may change the host knows after it.
    fn begins(&mut self, setup: [u8; 8]) {
        (self.toggles[0], self.toggles[1], self.sent_again) = (true, true, false);
        self.read.clear();
        if sets_protocol(setup) {
            self.is_boot = None;
        }
        if begins_endpoint_1(setup) || setup == HALT {
            self.endpoint_1 = None;
        }
        let data = self.sends.take().unwrap_or_else(|| data(setup, &mut self.numbers));
        self.host.began(setup, data);
    }

    fn is_lost(&mut self) -> bool {
        !self.quiet && self.numbers.one_of(4)
    }

    fn output(&mut self, packet: &[u8], wire: &mut dyn Wire) {
        let answer = wire.out(self.toggles[1], packet);
        let is_lost = answer == Answer::Ack && self.is_lost();
        self.tell(OUT[usize::from(self.toggles[1])], Some(packet), answer.clone(), is_lost);
        match answer {
            Answer::Ack if is_lost => self.sent_again = true,
            Answer::Ack => {
                self.counts.again[2] += usize::from(std::mem::take(&mut self.sent_again));
                self.toggles[1] = !self.toggles[1];
                self.host.taken();
            }
            Answer::Stall => self.stalled(),
            Answer::Nak | Answer::Nothing | Answer::Packet(..) => {}
        }
    }

    fn input(&mut self, endpoint: usize, wire: &mut dyn Wire) {
        let answer = wire.input(endpoint);
        let is_lost = matches!(answer, Answer::Packet(..)) && self.is_lost();
        self.tell(IN[endpoint], None, answer.clone(), is_lost);
        if endpoint == 1 {
            self.expects(&answer);
        }
        match answer {
            Answer::Packet(toggle, packet) => {
                if toggle != self.toggles[2 * endpoint] {
                    self.counts.again[endpoint] += 1;
                } else {
                    self.toggles[2 * endpoint] = !toggle;
                    if endpoint == 0 { self.came(&packet) } else { self.hears(packet) }
                }
                if !is_lost {
                    wire.acknowledged(endpoint);
                }
            }
            Answer::Stall if endpoint == 0 => self.stalled(),
            Answer::Stall | Answer::Nak | Answer::Ack | Answer::Nothing => {}
        }
    }

    /// Endpoint 1 answers as what it is.
    fn expects(&self, answer: &Answer) {
        let is_right = match self.endpoint_1 {
            Some(Endpoint1::Off) => *answer == Answer::Nothing,
            Some(Endpoint1::Halted) => *answer == Answer::Stall,
            Some(Endpoint1::Ready) => matches!(answer, Answer::Nak | Answer::Packet(..)),
            None => true,
        };
        assert!(is_right, "endpoint 1 is {:?}, and answers {answer:02x?}", self.endpoint_1);
    }

    fn stalled(&mut self) {
        let setup = self.host.setup();
        assert!(!is_conforming_command(setup, self.host.data()), "a conforming command is stalled");
        assert!(!self.host.ends_a_read(), "the end of a read is stalled");
        self.counts.stalls += 1;
        self.host.stalled();
    }

    /// A packet of endpoint 0, which may be the last of a transfer.
    fn came(&mut self, packet: &[u8]) {
        self.read.extend(packet);
        if !self.host.came(packet) {
            return;
        }
        let setup = self.host.setup();
        if begins_endpoint_1(setup) {
            self.toggles[2] = false;
            self.partial.clear();
        }
        match setup {
            [0, 9, number, ..] => self.endpoint_1 = Some(if number == 0 { Endpoint1::Off } else { Endpoint1::Ready }),
            HALT => self.endpoint_1 = Some(Endpoint1::Halted),
            [1, 0x0b, ..] | [2, 1, ..] => self.endpoint_1 = Some(Endpoint1::Ready),
            _ => {}
        }
        if sets_protocol(setup) {
            self.is_boot = Some(setup[2] == 0);
        }
        if is_conforming_command(setup, self.host.data()) {
            self.counts.confirmed += 1;
            self.confirmed.push(self.host.data().to_vec());
        }
    }

    /// A packet of a report.
    fn hears(&mut self, packet: Vec<u8>) {
        let begins = self.partial.is_empty() && self.size > 8;
        assert!(
            !begins || self.is_boot.is_none_or(|is_boot| is_boot == (packet.len() == 8)),
            "a report of the other protocol begins with {packet:02x?}"
        );
        self.partial.extend(&packet);
        if packet.len() < self.size || self.partial.len() >= if self.is_boot == Some(true) { 8 } else { 23 } {
            self.counts.reports += 1;
            let report = std::mem::take(&mut self.partial);
            self.known.insert((report[0] * u8::from(report.len() != 8), report.len()), report);
        }
    }
}

/// What comes on the bus, and whether it could.
pub(super) type Comes<P> = fn(&mut P) -> bool;

/// Played registers with the host on their wire, shared by the driver and the host.
pub type Wired<P> = RefCell<OnWire<P>>;

/// Played registers with the host on their wire: at any access of the driver something may come.
#[derive(Debug)]
pub struct OnWire<P> {
    /// The registers.
    pub registers: P,
    pub(super) line: Line,
    /// After so many accesses this comes, as soon as it can.
    pub(super) comes: Option<(usize, Comes<P>)>,
    masked: bool,
    /// Something came since the interrupts are off, where the time is too short for more.
    has_come: bool,
    /// So many accesses of a reset are left.
    resets: usize,
}

impl<P: Wire> OnWire<P> {
    /// Registers on whose wire nothing happens by itself, for a test that plays its own host.
    pub fn quiet(registers: P) -> OnWire<P> {
        let mut quiet = OnWire::new(registers, 1, 64);
        quiet.line.quiet = true;
        quiet
    }

    pub(super) fn new(registers: P, seed: u64, size: usize) -> OnWire<P> {
        OnWire { registers, line: Line::new(seed, size), comes: None, masked: false, has_come: false, resets: 0 }
    }

    /// Something may come before an access of the driver to a register.
    pub fn access(&mut self) {
        match self.comes.take() {
            Some((0, comes)) if comes(&mut self.registers) => {}
            other => self.comes = other.map(|(accesses, comes)| (accesses.saturating_sub(1), comes)),
        }
        self.resets = self.resets.saturating_sub(1);
        if !self.line.quiet && !self.has_come && self.resets == 0 && self.line.numbers.one_of(6) {
            self.has_come = self.masked;
            let before = self.line.counts.resets;
            self.line.go_on(&mut self.registers);
            self.resets = if self.line.counts.resets > before { RESET_ACCESSES } else { 0 };
        }
    }

    /// The processor's interrupts go off or on. While they are off at most one thing comes: the time is too short for more.
    pub fn interrupts(&mut self, on: bool) {
        (self.masked, self.has_come) = (!on, false);
    }

    /// The handler of an interrupt begins, and `interrupts(true)` ends it: it is over before anything comes.
    pub fn begin_handler(&mut self) {
        (self.masked, self.has_come) = (true, true);
    }

    /// Whether the interrupts are off.
    pub fn is_masked(&self) -> bool {
        self.masked
    }

    pub(super) fn act(&mut self, act: Act) {
        self.line.act(act, &mut self.registers);
    }

    /// Nothing more happens on the bus by itself, and a suspended bus goes on.
    pub(super) fn calms(&mut self) {
        self.line.quiet = true;
        if self.line.is_suspended {
            self.line.resumes(&mut self.registers);
        }
    }
}
