// SPDX-License-Identifier: MIT OR Apache-2.0

//! The keyboard as a class of the crate `usb-device`, which keeps endpoint 0 and hands over whole transfers.

use usb_device::Result;
use usb_device::class_prelude::*;
use usb_device::control::{Recipient, Request, RequestType};
use wuzhikar::usb::HID_DESCRIPTOR;
use wuzhikar_device::{Works, read, write};

/// How often `write` asks for the status stage: a command takes at most 387 steps of the flash work.
const STEPS: u16 = 388;

/// An interface of class HID, with the boot interface of a keyboard (HID 1.11 sections 4.1 to 4.3).
const HID_BOOT_KEYBOARD: [u8; 3] = [3, 1, 1];

/// The types of the HID and the report descriptor (HID 1.11 section 7.1).
const HID_DESCRIPTORS: [u16; 2] = [0x21, 0x22];

/// A report of 23 bytes is one packet, polled each millisecond.
const PACKET: u16 = 32;
const INTERVAL: u8 = 1;

/// A keyboard with its flash, its interface, and its interrupt endpoint.
pub struct KeyboardClass<'a, B: UsbBus, K> {
    keyboard: K,
    interface: InterfaceNumber,
    endpoint: EndpointIn<'a, B>,
    /// Whether the host has taken what the endpoint was given.
    is_free: bool,
}

impl<'a, B: UsbBus, K: Works> KeyboardClass<'a, B, K> {
    /// A class with an interface and an endpoint of this device.
    pub fn new(keyboard: K, allocator: &'a UsbBusAllocator<B>) -> KeyboardClass<'a, B, K> {
        let (interface, endpoint) = (allocator.interface(), allocator.interrupt(PACKET, INTERVAL));
        KeyboardClass { keyboard, interface, endpoint, is_free: true }
    }

    /// The keyboard, for its scans: one each millisecond.
    pub fn keyboard(&mut self) -> &mut K {
        &mut self.keyboard
    }

    /// The power goes: the keyboard.
    pub fn into_keyboard(self) -> K {
        self.keyboard
    }

    /// Whether a request is the keyboard's: one of its class, or GET_DESCRIPTOR of an HID or a report descriptor.
    fn is_own(&self, request: &Request) -> bool {
        let descriptor = request.request == Request::GET_DESCRIPTOR && HID_DESCRIPTORS.contains(&(request.value >> 8));
        request.recipient == Recipient::Interface
            && request.index == u16::from(u8::from(self.interface))
            && match request.request_type {
                RequestType::Class => true,
                RequestType::Standard => descriptor,
                _ => false,
            }
    }
}

/// The SETUP packet of a request (USB 2.0 table 9-2). The keyboard knows its interface as number 0.
fn setup_of(request: &Request) -> [u8; 8] {
    let kind = request.direction as u8 | (request.request_type as u8) << 5 | request.recipient as u8;
    let [value_low, value_high] = request.value.to_le_bytes();
    let [length_low, length_high] = request.length.to_le_bytes();
    [kind, request.request, value_low, value_high, 0, 0, length_low, length_high]
}

impl<B: UsbBus, K: Works> UsbClass<B> for KeyboardClass<'_, B, K> {
    fn get_configuration_descriptors(&self, writer: &mut DescriptorWriter) -> Result<()> {
        let [class, sub_class, protocol] = HID_BOOT_KEYBOARD;
        writer.interface(self.interface, class, sub_class, protocol)?;
        writer.write(HID_DESCRIPTOR[1], &HID_DESCRIPTOR[2..])?;
        writer.endpoint(&self.endpoint)
    }

    fn reset(&mut self) {
        self.is_free = true;
        self.keyboard.bus_reset();
    }

    /// Hands over the report that is due, where the endpoint is free. The loop calls it as often as it can while the device is
    /// configured. No call takes a report back: one that the endpoint has is sent behind SET_PROTOCOL too, and `Keys` then has
    /// the host forget it.
    fn poll(&mut self) {
        if self.is_free {
            if let Some(report) = self.keyboard.poll() {
                self.is_free = self.endpoint.write(&report).is_err();
            }
        }
    }

    fn endpoint_in_complete(&mut self, addr: EndpointAddress) {
        self.is_free |= addr == self.endpoint.address();
    }

    /// A control write. It is accepted once the keyboard has confirmed it: what a command writes is then in the flash. A host
    /// tries again behind `Busy`, for which this stack has no NAK.
    fn control_out(&mut self, xfer: ControlOut<B>) {
        let request = *xfer.request();
        if !self.is_own(&request) {
            return;
        }
        let written = write(&mut self.keyboard, setup_of(&request), xfer.data(), STEPS);
        // The stack says where it had no room for the answer, and the host then asks again.
        let _ = if written.is_ok() { xfer.accept() } else { xfer.reject() };
    }

    fn control_in(&mut self, xfer: ControlIn<B>) {
        if !self.is_own(xfer.request()) {
            return;
        }
        let bytes = read(&mut self.keyboard, setup_of(xfer.request()));
        let _ = match bytes {
            Ok(bytes) => xfer.accept_with(&bytes),
            Err(_) => xfer.reject(),
        };
    }
}
