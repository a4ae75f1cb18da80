//! The registers, played: the chip counts no toggles and leaves its buffers at a SETUP packet and at a reset, and at any access
//! something may come on the bus, after which the interrupt runs.

use super::*;
use std::collections::HashMap;
use wuzhikar_device::testing::{self, Answer, Wire};

/// The registers, as they are at the power's coming.
#[derive(Debug)]
pub struct Played {
    revision: u32,
    words: HashMap<usize, u32>,
    /// For how long the driver waited.
    waited: u32,
    /// A cycle of the controller went by since a control word was written.
    is_idle: bool,
    woken: bool,
    /// The state of suspend has changed, which a write to SUSPENDED clears; the bit itself says how it is.
    is_changed: bool,
    /// The accesses since a SETUP packet came.
    since: usize,
    /// How often the driver has looked whether a buffer is taken back, where that never ends.
    pub(super) looks: Option<usize>,
}

impl Played {
    pub fn of(revision: u32) -> Played {
        let words = HashMap::from([(NOTES, WAS_RESET)]);
        Played { revision, words, waited: 0, is_idle: false, woken: false, is_changed: false, since: 0, looks: None }
    }

    pub(super) fn at(&mut self, place: usize) -> &mut u32 {
        self.words.entry(place).or_default()
    }

    pub(super) fn word(&self, place: usize) -> u32 {
        self.words.get(&place).copied().unwrap_or(0)
    }

    fn control(&self, buffer: usize) -> u32 {
        self.word(CONTROL + 4 * buffer)
    }

    fn is_aborted(&self, buffer: usize) -> bool {
        self.revision >= 2 && self.word(ABORT) & 1 << buffer != 0
    }

    fn is_stalled(&self, buffer: usize) -> bool {
        self.control(buffer) & STALL != 0 && (buffer == IN_1 || self.word(STALL_ARM) & 1 << buffer != 0)
    }

    /// What of SIE_STATUS and of the buffers is asked for by interrupts.
    fn raw(&self) -> u32 {
        let of = |bit, interrupt| if self.word(SIE_STATUS) & bit != 0 { interrupt } else { 0 };
        of(BUS_RESET, RESET_INTERRUPT) | of(SETUP, SETUP_INTERRUPT) | if self.is_changed { SUSPENDED_INTERRUPT } else { 0 }
    }

    fn asked(&self) -> u32 {
        self.raw() & self.word(INTERRUPTS)
    }
}

impl Wire for Played {
    fn setup(&mut self, packet: [u8; 8]) -> bool {
        for (number, bytes) in packet.chunks(4).enumerate() {
            *self.at(SETUP_PACKET + 4 * number) = u32::from_le_bytes(bytes.try_into().unwrap());
        }
        *self.at(SIE_STATUS) |= SETUP;
        *self.at(STALL_ARM) = 0;
        self.since = 0;
        true
    }

    fn out(&mut self, toggle: bool, packet: &[u8]) -> Answer {
        let word = self.control(OUT_0);
        if self.is_aborted(OUT_0) {
            return Answer::Nak;
        }
        if self.is_stalled(OUT_0) {
            return Answer::Stall;
        }
        if word & (AVAILABLE | FULL) != AVAILABLE {
            return Answer::Nak;
        }
        if toggle == (word & DATA1 != 0) {
            for (number, bytes) in packet.chunks(4).enumerate() {
                *self.at(PACKETS[OUT_0] + 4 * number) = bytes.iter().rev().fold(0, |word, byte| word << 8 | u32::from(*byte));
            }
            *self.at(CONTROL + 4 * OUT_0) = FULL | word & (LAST | DATA1) | packet.len() as u32;
            *self.at(BUFFER_STATUS) |= 1 << OUT_0;
        }
        Answer::Ack
    }

    fn input(&mut self, endpoint: usize) -> Answer {
        let buffer = 2 * endpoint;
        let word = self.control(buffer);
        if buffer == IN_1 && self.word(ENDPOINT_1) != ON {
            return Answer::Nothing;
        }
        if self.is_aborted(buffer) {
            return Answer::Nak;
        }
        if self.is_stalled(buffer) {
            return Answer::Stall;
        }
        if word & (AVAILABLE | FULL) != AVAILABLE | FULL {
            return Answer::Nak;
        }
        let byte = |number: usize| (self.word(PACKETS[buffer] + number / 4 * 4) >> (8 * (number % 4))) as u8;
        Answer::Packet(word & DATA1 != 0, (0..(word & LENGTH) as usize).map(byte).collect())
    }

    fn acknowledged(&mut self, endpoint: usize) {
        let buffer = 2 * endpoint;
        *self.at(CONTROL + 4 * buffer) &= LENGTH | LAST | DATA1;
        *self.at(BUFFER_STATUS) |= 1 << buffer;
    }

    fn reset(&mut self) {
        *self.at(SIE_STATUS) |= BUS_RESET;
    }

    fn suspend(&mut self) {
        *self.at(SIE_STATUS) |= SUSPENDED;
        self.is_changed = true;
    }

    fn resume(&mut self) {
        *self.at(SIE_STATUS) &= !SUSPENDED;
        *self.at(SIE_STATUS) |= RESUMED;
        self.is_changed = true;
    }

    fn address(&self) -> u8 {
        self.word(ADDRESS) as u8
    }

    fn wakes(&mut self) -> bool {
        std::mem::take(&mut self.woken)
    }
}

/// The first access after a SETUP packet at which the token after that may be on the bus, with a processor of 48 MHz.
const TOKEN: usize = 12;

impl Played {
    /// An access goes by: such a token is answered by NAK.
    fn sees_tokens(&mut self) {
        self.since += 1;
        if self.since >= TOKEN && self.word(SIE_STATUS) & SETUP != 0 {
            for buffer in [IN_0, OUT_0] {
                let word = self.control(buffer);
                let answers = word & AVAILABLE != 0 || self.is_stalled(buffer);
                assert!(self.is_aborted(buffer) || !answers, "{word:x} behind a SETUP packet");
            }
        }
    }
}

/// The registers beside the host, whom the interrupt follows.
pub type Wired = testing::Wired<Played>;

/// Something may come, and the interrupt runs where it is asked for.
fn access(wire: &Wired) {
    wire.borrow_mut().access();
    interrupts_run(wire);
}

pub(super) fn interrupts_run(wire: &Wired) {
    let runs = !wire.borrow().is_masked() && wire.borrow().registers.asked() != 0;
    if runs {
        wire.borrow_mut().begin_handler();
        interrupt(&wire);
        wire.borrow_mut().interrupts(true);
        interrupts_run(wire);
    }
}

impl Registers for &Wired {
    fn read(&self, place: usize) -> u32 {
        access(self);
        self.borrow_mut().registers.sees_tokens();
        let played = &mut self.borrow_mut().registers;
        match place {
            RAW_INTERRUPTS => played.raw(),
            ASKED => played.asked(),
            ABORT_DONE if played.looks.is_some() => {
                played.looks = played.looks.map(|looks| looks + 1);
                assert!(played.looks < Some(100_000), "the driver waits for ever");
                0
            }
            // Nothing is on the bus between two accesses.
            ABORT_DONE if played.revision >= 2 => played.word(ABORT),
            // The driver would wait for ever.
            ABORT_DONE => panic!("EP_ABORT of B1"),
            _ => played.word(place),
        }
    }

    fn write(&self, place: usize, word: u32) {
        access(self);
        let played = &mut self.borrow_mut().registers;
        played.sees_tokens();
        match place {
            SIE_STATUS => {
                played.is_changed &= word & SUSPENDED == 0;
                *played.at(place) &= !word | SUSPENDED;
            }
            BUFFER_STATUS => *played.at(place) &= !word,
            SIE_CONTROL => {
                played.woken |= word & WAKE != 0 && played.waited >= 2;
                *played.at(place) = word & !WAKE;
            }
            _ if (CONTROL..CONTROL + 12).contains(&place) => {
                // All other bits are written before AVAILABLE, and long enough before it.
                assert!(word & AVAILABLE == 0 || played.is_idle && played.word(place) == word & !AVAILABLE, "{place:x}");
                played.is_idle = false;
                *played.at(place) = word;
            }
            _ => *played.at(place) = word,
        }
    }

    fn write_byte(&self, place: usize, byte: u8) {
        access(self);
        let played = &mut self.borrow_mut().registers;
        played.sees_tokens();
        let shift = 8 * (place % 4);
        let word = played.at(place - place % 4);
        *word = *word & !(0xff << shift) | u32::from(byte) << shift;
    }

    fn revision(&self) -> u32 {
        self.borrow().registers.revision
    }

    fn interrupts(&self, on: bool) {
        self.borrow_mut().interrupts(on);
        interrupts_run(self);
    }

    fn pause(&self) {
        self.borrow_mut().registers.is_idle = true;
    }

    fn wait(&self, milliseconds: u32) {
        self.borrow_mut().registers.waited = milliseconds;
    }
}
