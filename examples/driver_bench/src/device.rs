// SPDX-License-Identifier: MIT OR Apache-2.0
//! The device: keyboard, USB device layer and a flash in memory.
#![forbid(unsafe_code)]

use core::ops::{Deref, DerefMut};
use wuzhikar::{Mask, SimFlash, Work};
use wuzhikar_device::{Device, Identity, PacketSize, Product, utf16};

/// What the device tells of itself, by the packet size of endpoint 1. Vendor 1209h, product 0001h is an ID for tests.
static PRODUCTS: [Product<'static>; 4] = [
    product(PacketSize::Bytes8),
    product(PacketSize::Bytes16),
    product(PacketSize::Bytes32),
    product(PacketSize::Bytes64),
];

const fn product(packet_size: PacketSize) -> Product<'static> {
    Product::new(Identity {
        manufacturer: utf16!("Example"),
        product: utf16!("Wuzhikar keyboard"),
        serial_number: utf16!("0001"),
        packet_size,
        ..Identity::TEST
    })
}

/// A device on a flash in memory.
pub struct Bench(Device<'static, SimFlash>);

impl Bench {
    /// A device on erased pages. `None` where there is no such number of pages or packet size, or no memory.
    pub fn new(pages: usize, packet: usize) -> Option<Bench> {
        Bench::on(SimFlash::blank(pages).ok()?, packet)
    }

    /// A device on the bytes of a flash. `None` where they are not 2 to 8 pages, or there is no such packet size.
    pub fn on_image(image: &[u8], packet: usize) -> Option<Bench> {
        Bench::on(SimFlash::from_image(image.to_vec()).ok()?, packet)
    }

    fn on(flash: SimFlash, packet: usize) -> Option<Bench> {
        let size = PacketSize::from_bytes(packet)?;
        let product = PRODUCTS.iter().find(|product| product.identity().packet_size == size)?;
        Device::start(flash, product).ok().map(Bench)
    }

    /// A step of the flash work, whose operation is torn by the mask and answers a fault.
    pub fn tear(&mut self, mask: Mask) -> Work {
        self.0.flash_mut().fault_next(mask);
        let work = self.0.work();
        self.0.flash_mut().disarm();
        work
    }

    /// The power goes inside the operation of a step of the flash work, which is torn by the mask, and comes back.
    pub fn cut_in_work(&mut self, mask: Mask) {
        let _ = self.tear(mask);
        self.0.restart();
    }
}

impl Deref for Bench {
    type Target = Device<'static, SimFlash>;

    fn deref(&self) -> &Self::Target {
        &self.0
    }
}

impl DerefMut for Bench {
    fn deref_mut(&mut self) -> &mut Self::Target {
        &mut self.0
    }
}
