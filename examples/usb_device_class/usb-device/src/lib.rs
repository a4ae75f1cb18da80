// SPDX-License-Identifier: MIT OR Apache-2.0

//! What a class uses of the crate `usb-device` 0.3, restated from memory with its names and types. A firmware takes the crate itself.

pub type Result<T> = core::result::Result<T, UsbError>;

/// Why something can't be done now.
#[derive(Clone, Copy, Debug, PartialEq, Eq)]
pub enum UsbError {
    WouldBlock,
    BufferOverflow,
}

/// The direction of a transfer, as bit 7 of bmRequestType.
#[derive(Clone, Copy, Debug, PartialEq, Eq)]
pub enum UsbDirection {
    Out = 0x00,
    In = 0x80,
}

pub mod class_prelude {
    pub use crate::UsbError;
    pub use crate::bus::{InterfaceNumber, UsbBus, UsbBusAllocator};
    pub use crate::class::{ControlIn, ControlOut, UsbClass};
    pub use crate::control;
    pub use crate::descriptor::DescriptorWriter;
    pub use crate::endpoint::{EndpointAddress, EndpointIn};
}

pub mod bus {
    use crate::Result;
    use crate::endpoint::{Endpoint, EndpointAddress, EndpointDirection};
    use core::cell::Cell;

    /// A driver of a controller.
    pub trait UsbBus: Sized {
        /// Hands a packet to an endpoint. `WouldBlock` while the one before is not with the host, `BufferOverflow` where it is longer
        /// than the endpoint's packets.
        fn write(&self, address: EndpointAddress, bytes: &[u8]) -> Result<usize>;
    }

    /// The number of an interface.
    #[derive(Clone, Copy, PartialEq, Eq)]
    pub struct InterfaceNumber(u8);

    impl From<InterfaceNumber> for u8 {
        fn from(number: InterfaceNumber) -> u8 {
            number.0
        }
    }

    /// Gives classes their interfaces and endpoints.
    pub struct UsbBusAllocator<B> {
        bus: B,
        interfaces: Cell<u8>,
        endpoints: Cell<u8>,
    }

    impl<B: UsbBus> UsbBusAllocator<B> {
        pub fn new(bus: B) -> UsbBusAllocator<B> {
            UsbBusAllocator { bus, interfaces: Cell::new(0), endpoints: Cell::new(1) }
        }

        pub fn interface(&self) -> InterfaceNumber {
            InterfaceNumber(self.interfaces.replace(self.interfaces.get() + 1))
        }

        pub fn interrupt<D: EndpointDirection>(&self, max_packet_size: u16, interval: u8) -> Endpoint<'_, B, D> {
            let number = self.endpoints.replace(self.endpoints.get() + 1);
            Endpoint::new(&self.bus, number, max_packet_size, interval)
        }
    }
}

pub mod endpoint {
    use crate::bus::UsbBus;
    use crate::{Result, UsbDirection};
    use core::marker::PhantomData;

    pub trait EndpointDirection {
        const DIRECTION: UsbDirection;
    }

    pub struct In;

    impl EndpointDirection for In {
        const DIRECTION: UsbDirection = UsbDirection::In;
    }

    /// bEndpointAddress.
    #[derive(Clone, Copy, Debug, PartialEq, Eq)]
    pub struct EndpointAddress(u8);

    impl From<u8> for EndpointAddress {
        fn from(address: u8) -> EndpointAddress {
            EndpointAddress(address)
        }
    }

    impl From<EndpointAddress> for u8 {
        fn from(address: EndpointAddress) -> u8 {
            address.0
        }
    }

    pub struct Endpoint<'a, B: UsbBus, D: EndpointDirection> {
        bus: &'a B,
        address: EndpointAddress,
        max_packet_size: u16,
        interval: u8,
        direction: PhantomData<D>,
    }

    pub type EndpointIn<'a, B> = Endpoint<'a, B, In>;

    impl<'a, B: UsbBus, D: EndpointDirection> Endpoint<'a, B, D> {
        pub(crate) fn new(bus: &'a B, number: u8, max_packet_size: u16, interval: u8) -> Endpoint<'a, B, D> {
            let address = EndpointAddress(number | D::DIRECTION as u8);
            Endpoint { bus, address, max_packet_size, interval, direction: PhantomData }
        }

        pub fn address(&self) -> EndpointAddress {
            self.address
        }

        pub fn max_packet_size(&self) -> u16 {
            self.max_packet_size
        }

        pub fn interval(&self) -> u8 {
            self.interval
        }
    }

    impl<B: UsbBus> Endpoint<'_, B, In> {
        pub fn write(&self, bytes: &[u8]) -> Result<usize> {
            self.bus.write(self.address, bytes)
        }
    }
}

pub mod descriptor {
    use crate::bus::{InterfaceNumber, UsbBus};
    use crate::endpoint::{Endpoint, EndpointDirection};
    use crate::{Result, UsbError};

    /// Writes the descriptors of a configuration, one behind the other (USB 2.0 section 9.6).
    pub struct DescriptorWriter<'a> {
        bytes: &'a mut [u8],
        position: usize,
    }

    impl DescriptorWriter<'_> {
        pub fn new(bytes: &mut [u8]) -> DescriptorWriter<'_> {
            DescriptorWriter { bytes, position: 0 }
        }

        pub fn position(&self) -> usize {
            self.position
        }

        /// A descriptor, of which its length and its type are written before.
        pub fn write(&mut self, descriptor_type: u8, descriptor: &[u8]) -> Result<()> {
            let length = descriptor.len() + 2;
            let room = self.bytes.get_mut(self.position..self.position + length).ok_or(UsbError::BufferOverflow)?;
            (room[0], room[1]) = (length as u8, descriptor_type);
            room[2..].copy_from_slice(descriptor);
            self.position += length;
            Ok(())
        }

        /// An interface. (The crate counts its endpoints by itself; here it has one.)
        pub fn interface(&mut self, number: InterfaceNumber, class: u8, sub_class: u8, protocol: u8) -> Result<()> {
            self.write(4, &[number.into(), 0, 1, class, sub_class, protocol, 0])
        }

        pub fn endpoint<B: UsbBus, D: EndpointDirection>(&mut self, endpoint: &Endpoint<'_, B, D>) -> Result<()> {
            let [low, high] = endpoint.max_packet_size().to_le_bytes();
            self.write(5, &[endpoint.address().into(), 3, low, high, endpoint.interval()])
        }
    }
}

pub mod control {
    use crate::UsbDirection;

    /// The type of a request, bits 6 and 5 of bmRequestType.
    #[derive(Clone, Copy, Debug, PartialEq, Eq)]
    pub enum RequestType {
        Standard = 0,
        Class = 1,
        Vendor = 2,
        Reserved = 3,
    }

    /// Whom it is for, bits 4 to 0.
    #[derive(Clone, Copy, Debug, PartialEq, Eq)]
    pub enum Recipient {
        Device = 0,
        Interface = 1,
        Endpoint = 2,
        Other = 3,
        Reserved = 4,
    }

    /// A SETUP packet.
    #[derive(Clone, Copy, Debug, PartialEq, Eq)]
    pub struct Request {
        pub direction: UsbDirection,
        pub request_type: RequestType,
        pub recipient: Recipient,
        pub request: u8,
        pub value: u16,
        pub index: u16,
        pub length: u16,
    }

    impl Request {
        pub const GET_DESCRIPTOR: u8 = 6;
    }

    /// What became of a transfer that classes were offered.
    #[derive(Clone, Debug, PartialEq, Eq)]
    pub enum Outcome {
        /// No class took it: the stack serves or stalls it.
        Offered,
        Accepted(Vec<u8>),
        Rejected,
    }

    /// A transfer with what the host sent, and what became of it.
    pub struct ControlPipe<'p> {
        pub data: &'p [u8],
        pub outcome: Outcome,
    }
}

pub mod class {
    use crate::bus::UsbBus;
    use crate::control::{ControlPipe, Outcome, Request};
    use crate::descriptor::DescriptorWriter;
    use crate::endpoint::EndpointAddress;
    use crate::{Result, UsbError};
    use core::marker::PhantomData;

    /// The most bytes that the stack has room for.
    const CONTROL_BUFFER: usize = 128;

    /// A class of the device. (The crate's has more, each with a body that does nothing.)
    pub trait UsbClass<B: UsbBus> {
        fn get_configuration_descriptors(&self, writer: &mut DescriptorWriter) -> Result<()> {
            let _ = writer;
            Ok(())
        }

        fn reset(&mut self) {}

        fn poll(&mut self) {}

        fn control_out(&mut self, xfer: ControlOut<B>) {
            let _ = xfer;
        }

        fn control_in(&mut self, xfer: ControlIn<B>) {
            let _ = xfer;
        }

        /// The host has taken the packet of an IN endpoint.
        fn endpoint_in_complete(&mut self, addr: EndpointAddress) {
            let _ = addr;
        }
    }

    /// A control write with its data, before its status stage.
    pub struct ControlOut<'a, 'p, 'r, B>(&'a mut ControlPipe<'p>, &'r Request, PhantomData<B>);

    impl<'a, 'p, 'r, B: UsbBus> ControlOut<'a, 'p, 'r, B> {
        pub fn new(pipe: &'a mut ControlPipe<'p>, request: &'r Request) -> ControlOut<'a, 'p, 'r, B> {
            ControlOut(pipe, request, PhantomData)
        }

        pub fn request(&self) -> &Request {
            self.1
        }

        pub fn data(&self) -> &[u8] {
            self.0.data
        }

        pub fn accept(self) -> Result<()> {
            self.0.outcome = Outcome::Accepted(Vec::new());
            Ok(())
        }

        pub fn reject(self) -> Result<()> {
            self.0.outcome = Outcome::Rejected;
            Ok(())
        }
    }

    /// A control read.
    pub struct ControlIn<'a, 'p, 'r, B>(&'a mut ControlPipe<'p>, &'r Request, PhantomData<B>);

    impl<'a, 'p, 'r, B: UsbBus> ControlIn<'a, 'p, 'r, B> {
        pub fn new(pipe: &'a mut ControlPipe<'p>, request: &'r Request) -> ControlIn<'a, 'p, 'r, B> {
            ControlIn(pipe, request, PhantomData)
        }

        pub fn request(&self) -> &Request {
            self.1
        }

        pub fn accept_with(self, data: &[u8]) -> Result<()> {
            if data.len() > CONTROL_BUFFER {
                return Err(UsbError::BufferOverflow);
            }
            let length = data.len().min(self.1.length.into());
            self.0.outcome = Outcome::Accepted(data[..length].to_vec());
            Ok(())
        }

        pub fn reject(self) -> Result<()> {
            self.0.outcome = Outcome::Rejected;
            Ok(())
        }
    }
}
