// SPDX-License-Identifier: MIT OR Apache-2.0
//! The keyboard without an endpoint 0 of its own, as a class of a stack that hands over whole control transfers.

use crate::device::about;
use crate::file_flash::FileFlash;
use crate::on_bus::{About, Ended, OnBus, Polled};
use std::io::{Error, Result};
use wuzhikar::{Mask, Scan};
use wuzhikar_device::{Endpoints, Product, ScansMatrix, UsbKeyboard};

pub struct Class {
    keyboard: UsbKeyboard<FileFlash>,
    product: &'static Product<'static>,
}

impl Class {
    /// The keyboard on this flash.
    pub fn new(flash: FileFlash, product: &'static Product<'static>) -> Result<Class> {
        Ok(Class { keyboard: UsbKeyboard::start(flash).map_err(Error::other)?, product })
    }
}

impl OnBus for Class {
    fn about(&self) -> About {
        about(self.product.identity())
    }

    /// A write has stored or refused what it was given when it returns.
    fn control(&mut self, setup: [u8; 8], data: &[u8]) -> Ended {
        let reads = setup[0] & 0x80 != 0;
        let done = match reads {
            true => self.keyboard.read(setup).map(|bytes| bytes.to_vec()),
            false => self.keyboard.write(setup, data).map(|()| Vec::new()),
        };
        done.map_or(Ended::Stall, Ended::Data)
    }

    /// A whole report.
    fn poll(&mut self) -> Polled {
        self.keyboard.poll().map_or(Polled::Nak, |report| Polled::Packet(report.to_vec()))
    }

    fn bus_reset(&mut self) {
        self.keyboard.bus_reset();
    }

    fn millisecond(&mut self, scan: Scan) {
        ScansMatrix::scan(&mut self.keyboard, scan.rows);
    }

    fn leds(&self) -> u8 {
        self.keyboard.keyboard().leds()
    }

    /// The power goes with the process.
    fn cut(&mut self) {
        std::process::abort();
    }

    fn tear(&mut self, mask: Vec<u8>) {
        self.keyboard.flash().tear(Mask::try_from(&mask[..]).expect("a mask"));
    }

    fn waits(&mut self) -> Option<usize> {
        None
    }

    fn image(&self) -> &[u8] {
        self.keyboard.flash().image()
    }
}
