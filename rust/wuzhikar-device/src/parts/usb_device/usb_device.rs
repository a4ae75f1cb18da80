// Exported from crates/usb_device/src/usb_device.rt by bin/export-rust. Edit that file instead.
//! A device with its layer and its buffers, behind a controller: what a loop calls.

use crate::parts::usb_device::buffers::Buffers;
use crate::parts::usb_device::{
    ControlBuffers, Controller, Device, DeviceLayer, Endpoints, Guarded, PacketSize, ScansMatrix,
    Works,
};

/// A device with its layer and its buffers, behind a controller that is handed packets beforehand.
///
/// A loop calls `serve` when an interrupt of the controller has come, and behind each scan; it may be called at any time.
/// `scan_rows` is a scan of the matrix, and `work` a step of the flash work; `scan` alone tells that a millisecond has gone by.
///
/// A host asks for the device descriptor, by the controller and the buffer of the examples of `Controller` and `Buffers`:
///
/// ```rust
/// # use wuzhikar_device::{Buffers, Controller, Endpoint1, Input, Output, Report, Waiting};
/// # struct InMemory {
/// #     setup: Option<[u8; 8]>,
/// #     input: Input,
/// #     address: u8,
/// # }
/// #
/// # impl Controller for InMemory {
/// #     fn waiting(&mut self) -> Waiting {
/// #         Waiting { reset: false, setup: self.setup.take(), out: None, taken: false }
/// #     }
/// #
/// #     fn input_0(&mut self, answer: Input) {
/// #         // An answer behind a SETUP packet that was not told is not for its transfer.
/// #         if self.setup.is_none() {
/// #             self.input = answer;
/// #         }
/// #     }
/// #
/// #     fn output_0(&mut self, _answer: Output) {}
/// #
/// #     fn set_address(&mut self, address: u8) {
/// #         self.address = address;
/// #     }
/// # }
/// # struct OneBuffer {
/// #     packet: Option<Report>,
/// # }
/// #
/// # impl Buffers for OneBuffer {
/// #     fn has_two(&self) -> bool {
/// #         false
/// #     }
/// #
/// #     fn taken_1(&mut self) -> usize {
/// #         0
/// #     }
/// #
/// #     fn begin_anew(&mut self, _state: Endpoint1) {
/// #         self.packet = None;
/// #     }
/// #
/// #     fn give_up(&mut self) {
/// #         self.packet = None;
/// #     }
/// #
/// #     fn host_began(&mut self) {}
/// #
/// #     fn forget(&mut self) {
/// #         self.packet = None;
/// #     }
/// #
/// #     fn input_1(&mut self, packet: Report) {
/// #         self.packet = Some(packet);
/// #     }
/// # }
/// # fn main() -> Result<(), Box<dyn std::error::Error>> {
/// use wuzhikar::SimFlash;
/// use wuzhikar_device::{DeviceLayer, Input, Keys, Product, UsbDevice};
///
/// let keys = Keys::start(SimFlash::blank(2).unwrap())?;
/// let layer = DeviceLayer::new(Product::TEST.descriptors());
/// let mut device = UsbDevice::new(layer, keys, OneBuffer { packet: None }, Product::TEST.identity().packet_size);
/// let mut usb = InMemory { setup: Some([0x80, 0x06, 0, 1, 0, 0, 18, 0]), input: Input::Nak, address: 0 };
/// // A round of the loop.
/// device.serve(&mut usb);
/// device.scan_rows([0; 6]);
/// device.work();
/// assert!(matches!(usb.input, Input::Packet(packet) if packet[..2] == [18, 1]));
/// # Ok(())
/// # }
/// ```
pub struct UsbDevice<'a, E, B> {
    pub(crate) control: ControlBuffers,
    pub(crate) device: Device<'a, E, B>,
}

impl<'a, E: Endpoints, B: Buffers> UsbDevice<'a, E, B> {
    /// The power comes: the device has no address and is not configured, and the buffers are empty.
    pub fn new(
        layer: DeviceLayer<'a>,
        behind: E,
        buffers: B,
        size: PacketSize,
    ) -> UsbDevice<'a, E, B> {
        UsbDevice {
            control: ControlBuffers::new(),
            device: Device::new(layer, behind, buffers, size),
        }
    }

    /// A scan of the matrix, a millisecond after the one before.
    pub fn scan(&mut self) {
        self.device.scan();
    }

    /// Takes what the controller has met, and fills its buffers.
    ///
    /// What a host saw the end of is confirmed by the device behind, and the host takes as new
    /// the reports of the device behind, each whole, in their order. It is
    /// asked again in each call for what it put off, and a report that waits is handed over, except in a pause.
    pub fn serve<C: Controller>(&mut self, controller: &mut C) {
        self.control.serve(&mut self.device, controller);
        self.settle();
        self.device.serve_reports();
        self.tell(controller);
    }

    /// The bus is suspended: the controller saw it idle for 3 ms (section 7.1.7.6). Address and configuration stay. `resumed`, a SETUP
    /// packet and a reset of the bus end it.
    pub fn suspended(&mut self) {
        self.device.suspend();
    }

    /// The bus goes on: the controller saw it resume (section 7.1.7.7).
    pub fn resumed(&mut self) {
        self.device.resume();
    }

    /// Whether the controller is to signal a remote wakeup (section 7.1.7.7), asked behind `serve`: a report waits for the host, which
    /// has enabled remote wakeup and has suspended the bus. It is `true` once in each suspend.
    ///
    /// The driver signals K for 1 to 15 ms, and not before the bus was idle for 5 ms.
    pub fn wakes(&mut self) -> bool {
        self.device.wakes()
    }

    /// The controller has the address once the host has the status packet that brings it.
    fn tell<C: Controller>(&self, controller: &mut C) {
        match self.device.address_due() {
            Some(address) if self.control.is_done() => controller.set_address(address),
            _ => {}
        }
    }

    /// Endpoint 1 goes on once the host has the status packet.
    fn settle(&mut self) {
        if self.control.is_done() {
            self.device.is_done();
        }
    }
}

impl<'a, E: Works, B: Buffers> UsbDevice<'a, E, B> {
    /// A step of the work of the device behind, which is nothing to the bus.
    pub fn work(&mut self) {
        self.device.behind.work();
    }
}

impl<'a, E: ScansMatrix, B: Buffers> UsbDevice<'a, E, B> {
    /// A scan of the matrix with these rows, a millisecond after the one before.
    pub fn scan_rows(&mut self, rows: [u16; 6]) {
        self.scan();
        self.device.behind.scan(rows);
    }
}

impl<'a, E: Endpoints, B: Buffers> UsbDevice<'a, Guarded<E>, B> {
    /// Sets the lock of feature commands, or takes it away.
    pub fn set_locked(&mut self, on: bool) {
        self.device.behind.set_locked(on);
    }
}
