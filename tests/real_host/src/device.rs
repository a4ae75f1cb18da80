// SPDX-License-Identifier: MIT OR Apache-2.0
//! The device on a flash in memory, as it hangs on a bus.

use crate::on_bus::{About, Ended, OnBus, Polled};
use core::ops::ControlFlow;
use wuzhikar::{Mask, Scan, SimFlash, Work};
use wuzhikar_device::{Identity, NotDone, PacketSize, PollAnswer, Product, utf16};

/// Vendor 1209h, product 0001h is an ID for tests and not for products.
pub static PRODUCT: Product = Product::new(Identity {
    manufacturer: utf16!("Example"),
    product: utf16!("Wuzhikar keyboard"),
    serial_number: utf16!("0001"),
    ..Identity::TEST
});

/// What a bridge tells of a keyboard with this identity.
pub fn about(identity: &Identity) -> About {
    let numbers = [identity.vendor_id, identity.product_id, identity.release];
    About { numbers, packet: identity.packet_size.bytes(), interval: identity.interval.count() }
}

/// The product with packets of 8, 16, 32 or 64 bytes, and a serial number of its own.
pub fn product(size: usize, serial: Option<String>) -> &'static Product<'static> {
    let packet_size = PacketSize::from_bytes(size).expect("a packet size");
    let units = |serial: String| -> &'static [u16] { serial.encode_utf16().collect::<Vec<_>>().leak() };
    let serial_number = serial.map_or(PRODUCT.identity().serial_number, units);
    Box::leak(Box::new(Product::new(Identity { packet_size, serial_number, ..*PRODUCT.identity() })))
}

/// A keyboard on a bus.
pub struct Device {
    inner: wuzhikar_device::Device<'static, SimFlash>,
    waits: usize,
    /// The mask of the operation that the power goes in, at the next step of a command that the host waits for.
    tear: Option<Vec<u8>>,
}

impl Device {
    /// A keyboard on this flash.
    pub fn new(flash: SimFlash, product: &'static Product<'static>) -> Device {
        let inner = wuzhikar_device::Device::start(flash, product).expect("2 to 8 pages");
        Device { inner, waits: 0, tear: None }
    }

    /// A keyboard on two erased pages.
    pub fn blank() -> Device {
        Device::new(SimFlash::blank(2).expect("2 pages"), &PRODUCT)
    }
}

impl OnBus for Device {
    fn about(&self) -> About {
        about(self.inner.product().identity())
    }

    fn control(&mut self, setup: [u8; 8], data: &[u8]) -> Ended {
        let mut buffer = vec![0; 65_536 + 8];
        buffer[..data.len()].copy_from_slice(data);
        let (tear, waits) = (&mut self.tear, &mut self.waits);
        let ended = self.inner.control_with(setup, &mut buffer, |device| {
            *waits += 1;
            match tear.take() {
                Some(mask) => {
                    device.flash_mut().fault_next(Mask::try_from(&mask[..]).expect("a mask"));
                    let _ = device.work();
                    device.flash_mut().disarm();
                    device.restart();
                    ControlFlow::Break(NotDone::Broken)
                }
                None if device.work() == Work::Idle => ControlFlow::Break(NotDone::Waits),
                None => ControlFlow::Continue(()),
            }
        });
        match ended {
            Ok(done) => {
                buffer.truncate(if setup[0] & 0x80 != 0 { done.length } else { 0 });
                Ended::Data(buffer)
            }
            Err(NotDone::Broken) => Ended::Gone,
            Err(_) => Ended::Stall,
        }
    }

    fn poll(&mut self) -> Polled {
        match self.inner.poll() {
            PollAnswer::Data(packet) => Polled::Packet(packet.to_vec()),
            PollAnswer::Nak => Polled::Nak,
            PollAnswer::Stall => Polled::Stall,
            PollAnswer::Nothing => Polled::Nothing,
        }
    }

    fn bus_reset(&mut self) {
        self.inner.bus_reset();
    }

    fn millisecond(&mut self, scan: Scan) {
        self.inner.scan(scan);
        let _ = self.inner.work();
    }

    fn leds(&self) -> u8 {
        self.inner.leds()
    }

    fn cut(&mut self) {
        self.inner.restart();
    }

    fn tear(&mut self, mask: Vec<u8>) {
        self.tear = Some(mask);
    }

    fn waits(&mut self) -> Option<usize> {
        Some(std::mem::take(&mut self.waits))
    }

    fn image(&self) -> &[u8] {
        self.inner.flash().image()
    }
}
