// SPDX-License-Identifier: MIT OR Apache-2.0
//! A chip that is played: its events are a list, and what goes onto the bus is printed.

use crate::board::ROWS;
use crate::chip::{Chip, Event};
use std::vec::IntoIter;
use wuzhikar_device::{Change, EpAnswer, PollAnswer};

/// SET_REPORT of the feature report (HID 1.11 section 7.2.2), whose packet follows.
const SET_FEATURE: [u8; 8] = [0x21, 0x09, 0x03, 0x03, 0x00, 0x00, 0x06, 0x00];

/// Key 29 of layer 0 is usage 05h of the keyboard page, the letter b. The last two bytes are not sent.
const A_IS_B: [u8; 8] = [0x03, 0x01, 0, 29, 0x05, 0x00, 0, 0];

/// The switch of the letter a, the layer key, and the switch of 1: a row and a column.
const A: (usize, usize) = (2, 1);
const LAYER: (usize, usize) = (4, 11);
const ONE: (usize, usize) = (0, 1);

pub struct Played {
    plays: IntoIter<Play>,
    leds: u8,
}

/// What is played.
enum Play {
    /// A line that says what the next events are.
    Say(&'static str),
    /// An event.
    Event(Event),
}

/// The list as it grows.
struct Plays(Vec<Play>);

impl Played {
    /// The events of two times that the power is on.
    pub fn new() -> Played {
        let mut plays = Plays(Vec::new());
        plays.enumerate();
        plays.press("the key of the letter a is pressed", &[A]);
        plays.say("SET_REPORT: the key is a b");
        plays.events([Event::Setup(SET_FEATURE), Event::Out(A_IS_B, 6), Event::In]);
        // The header of a page, and the record of the entry.
        plays.events([Event::Nothing, Event::Nothing, Event::In, Event::Cut]);
        plays.address_and_configuration();
        plays.say("SET_REPORT: Caps Lock, until the host resets the bus");
        plays.events([Event::Setup([0x21, 9, 1, 2, 0, 0, 2, 0]), Event::Out([1, 2, 0, 0, 0, 0, 0, 0], 2), Event::In]);
        plays.address_and_configuration();
        plays.press("the key is pressed", &[A]);
        plays.press("the layer key is held", &[LAYER]);
        plays.press("and 1 is pressed", &[LAYER, ONE]);
        plays.events([Event::Cut]);
        Played { plays: plays.0.into_iter(), leds: 0 }
    }
}

impl Plays {
    fn say(&mut self, line: &'static str) {
        self.0.push(Play::Say(line));
    }

    fn events<const N: usize>(&mut self, events: [Event; N]) {
        self.0.extend(events.map(Play::Event));
    }

    /// A read of so many packets.
    fn read(&mut self, line: &'static str, setup: [u8; 8], packets: usize) {
        self.say(line);
        self.events([Event::Setup(setup)]);
        for _ in 0..packets {
            self.events([Event::In]);
        }
        self.events([Event::Out([0; 8], 0)]);
    }

    /// A request without data, or one that is stalled.
    fn ask(&mut self, line: &'static str, setup: [u8; 8]) {
        self.say(line);
        self.events([Event::Setup(setup), Event::In]);
    }

    /// What a stock Linux asks, in its order (`docs/firmware.md`, "Hosts").
    fn enumerate(&mut self) {
        self.events([Event::Reset]);
        self.read("GET_DESCRIPTOR: device, 64 bytes", [0x80, 6, 0, 1, 0, 0, 64, 0], 1);
        self.events([Event::Reset]);
        self.ask("SET_ADDRESS", [0x00, 5, 9, 0, 0, 0, 0, 0]);
        self.read("GET_DESCRIPTOR: device, 18 bytes", [0x80, 6, 0, 1, 0, 0, 18, 0], 3);
        for _ in 0..3 {
            self.ask("GET_DESCRIPTOR: device qualifier", [0x80, 6, 0, 6, 0, 0, 10, 0]);
        }
        self.read("GET_DESCRIPTOR: configuration, 9 bytes", [0x80, 6, 0, 2, 0, 0, 9, 0], 2);
        self.read("GET_DESCRIPTOR: configuration, 34 bytes", [0x80, 6, 0, 2, 0, 0, 34, 0], 5);
        self.read("GET_DESCRIPTOR: languages, 255 bytes", [0x80, 6, 0, 3, 0, 0, 255, 0], 1);
        self.read("GET_DESCRIPTOR: product, 255 bytes", [0x80, 6, 2, 3, 0x09, 0x04, 255, 0], 5);
        self.read("GET_DESCRIPTOR: manufacturer, 255 bytes", [0x80, 6, 1, 3, 0x09, 0x04, 255, 0], 3);
        self.read("GET_DESCRIPTOR: serial number, 255 bytes", [0x80, 6, 3, 3, 0x09, 0x04, 255, 0], 2);
        self.ask("SET_CONFIGURATION", [0x00, 9, 1, 0, 0, 0, 0, 0]);
        self.ask("SET_IDLE", [0x21, 10, 0, 0, 0, 0, 0, 0]);
        self.read("GET_DESCRIPTOR: report, 99 bytes", [0x81, 6, 0, 0x22, 0, 0, 99, 0], 13);
        self.say("SET_REPORT: no LED");
        self.events([Event::Setup([0x21, 9, 1, 2, 0, 0, 2, 0]), Event::Out([1, 0, 0, 0, 0, 0, 0, 0], 2), Event::In]);
    }

    /// The least that a host asks.
    fn address_and_configuration(&mut self) {
        self.events([Event::Reset]);
        self.ask("SET_ADDRESS", [0x00, 5, 10, 0, 0, 0, 0, 0]);
        self.ask("SET_CONFIGURATION", [0x00, 9, 1, 0, 0, 0, 0, 0]);
    }

    /// After five milliseconds with these switches closed the host polls: the report comes in two packets.
    fn press(&mut self, line: &'static str, closed: &[(usize, usize)]) {
        self.say(line);
        let mut rows = [0; ROWS];
        for (row, column) in closed {
            rows[*row] |= 1 << column;
        }
        for _ in 0..5 {
            self.events([Event::Millisecond(rows)]);
        }
        self.events([Event::Poll, Event::Poll]);
    }
}

impl Chip for Played {
    fn event(&mut self) -> Event {
        loop {
            match self.plays.next() {
                Some(Play::Say(line)) => println!("{line}"),
                Some(Play::Event(event)) => return event,
                None => return Event::Cut,
            }
        }
    }

    fn answer(&mut self, answer: &EpAnswer) {
        println!("endpoint 0: {answer:02x?}");
    }

    fn report(&mut self, answer: &PollAnswer) {
        println!("endpoint 1: {answer:02x?}");
    }

    fn change(&mut self, change: Change) {
        match change {
            Change::Address(address) => println!("address {address}"),
            Change::Endpoint(state) => println!("endpoint 1 is {state:?}"),
            Change::Wakeup(on) => println!("remote wakeup: {on}"),
        }
    }

    fn reset(&mut self) {
        println!("bus reset: address 0, endpoint 1 is Off");
    }

    fn arm(&mut self) {
        println!("endpoint 0 is armed again");
    }

    fn leds(&mut self, bits: u8) {
        if std::mem::replace(&mut self.leds, bits) != bits {
            println!("LEDs: {bits:05b}");
        }
    }
}
