// SPDX-License-Identifier: MIT OR Apache-2.0
//! The chip on the bus of a real host, by the program of tests/real_host.

use crate::Shop;
use crate::chip::{Chip, Frame, LOG, Lost, Order};
use crate::host::{self, Answer};
use real_host::{About, Ended, Given, OnBus, Polled};
use std::io::{Error, Result};
use std::process::ExitCode;
use wuzhikar::Scan;

/// What the firmware tells of itself.
const ABOUT: About = About { numbers: [0x1209, 1, 0x100], packet: 16, interval: 1 };

/// Runs `real_host` with these words on the chip.
pub fn run(shop: &Shop, words: &[String]) -> ExitCode {
    real_host::run(words.iter().map(Into::into).collect(), |given| Hung::new(shop, given))
}

struct Hung {
    chip: Chip,
    leds: u8,
    tear: Option<Vec<u8>>,
}

/// A chip that says nothing, or what is no frame, ends the program.
fn lost<T>(why: impl std::fmt::Debug) -> T {
    real_host::tell(format_args!("the chip: {why:?}"));
    std::process::exit(1)
}

impl Hung {
    fn new(shop: &Shop, given: &Given) -> Result<Hung> {
        if given.serial.is_some() || given.packet != ABOUT.packet {
            return Err(Error::other("the firmware has its own serial number and size of packets"));
        }
        let mut hung = Hung { chip: shop.chip()?, leds: 0, tear: None };
        if let Some(path) = &given.image {
            let image = std::fs::read(path)?;
            if image.len() != LOG {
                return Err(Error::other(format!("{}: the log of the chip has {LOG} bytes", path.display())));
            }
            hung.chip.put(&image);
        }
        hung.power();
        Ok(hung)
    }

    fn power(&mut self) {
        self.chip.power(Order::NEVER).unwrap_or_else(lost);
        host::start(&mut self.chip).unwrap_or_else(lost);
    }

    /// An answer, and the LEDs with it.
    fn ask(&mut self, request: &[u8]) -> Frame {
        let frame = self.chip.ask(request).unwrap_or_else(lost);
        self.leds = frame.leds;
        frame
    }

    /// Orders a cut inside the command that comes. A slot takes two words; as many bits of each are done as the mask has, and which
    /// these are the switch draws.
    fn order(&mut self, mask: &[u8]) {
        let bits = |at: usize| mask.iter().cycle().skip(at).take(4).map(|byte| byte.count_ones()).sum::<u32>();
        let (operation, done) = if bits(0) == 32 { (2, bits(4)) } else { (1, bits(0)) };
        self.chip.order(Order { operation, undone: 256 - 8 * done, ..Order::NEVER }).unwrap_or_else(lost);
    }
}

/// What the host is told of a transfer.
fn ended(answer: Answer<Option<Vec<u8>>>) -> Ended {
    match answer {
        Ok(Some(read)) => Ended::Data(read),
        Ok(None) => Ended::Stall,
        Err(Lost::Cut) => Ended::Gone,
        Err(why) => lost(why),
    }
}

impl OnBus for Hung {
    fn about(&self) -> About {
        ABOUT
    }

    fn control(&mut self, setup: [u8; 8], data: &[u8]) -> Ended {
        if let Some(mask) = self.tear.take_if(|_| setup[..2] == [0x21, 9]) {
            self.order(&mask);
        }
        let ended = ended(host::control(&mut self.chip, setup, data));
        if ended == Ended::Gone {
            self.power();
        }
        ended
    }

    fn poll(&mut self) -> Polled {
        let frame = self.ask(b"p");
        match frame.kind {
            b'D' => Polled::Packet(frame.bytes),
            b'N' => Polled::Nak,
            b'S' => Polled::Stall,
            _ => Polled::Nothing,
        }
    }

    fn bus_reset(&mut self) {
        self.ask(b"r");
    }

    fn millisecond(&mut self, scan: Scan) {
        let rows: Vec<u8> = scan.rows.iter().flat_map(|row| row.to_le_bytes()).collect();
        self.ask(&[b"m", &rows[..]].concat());
    }

    fn leds(&self) -> u8 {
        self.leds
    }

    fn cut(&mut self) {
        self.chip.cut().unwrap_or_else(lost);
        self.power();
    }

    fn tear(&mut self, mask: Vec<u8>) {
        self.tear = Some(mask);
    }

    fn waits(&mut self) -> Option<usize> {
        None
    }

    fn image(&self) -> &[u8] {
        &self.chip.flash[self.chip.log()..]
    }
}
