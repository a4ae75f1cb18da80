// SPDX-License-Identifier: MIT OR Apache-2.0

//! A whole control transfer, from the host's side (USB 2.0 section 8.5.3): for tests, for a bench, and for a bridge to a
//! host that asks by transfers and not by packets.

use crate::{Change, Device, EpAnswer, HasKeyboard};
use core::fmt;
use core::ops::ControlFlow;
use wuzhikar::usb::ENDPOINT_0_PACKET;
use wuzhikar::{NorFlash, Why, Work};

/// What a control transfer brought.
#[derive(Clone, Copy, Debug, PartialEq, Eq)]
pub struct Done {
    /// The bytes that were read, or taken.
    pub length: usize,
    /// What the controller has to do.
    pub change: Option<Change>,
}

/// Why a control transfer was not done.
#[derive(Clone, Copy, Debug, PartialEq, Eq)]
pub enum NotDone {
    /// It was stalled. A host on a real bus does not see the reason.
    Stall(Why),
    /// The buffer has no room for a packet, or fewer bytes than the SETUP packet says are to be written.
    Buffer,
    /// A packet was answered by NAK, and no command works: a host waits until its time is over.
    Waits,
    /// The caller broke off at a NAK.
    Broken,
}

impl fmt::Display for NotDone {
    fn fmt(&self, f: &mut fmt::Formatter<'_>) -> fmt::Result {
        match self {
            NotDone::Stall(why) => write!(f, "stalled, reason {}", why.number()),
            NotDone::Buffer => f.write_str("the buffer is too small"),
            NotDone::Waits => f.write_str("a packet waits, and no command works"),
            NotDone::Broken => f.write_str("broken off at a NAK"),
        }
    }
}

impl core::error::Error for NotDone {}

/// A SETUP packet that reads data: bit 7 of bmRequestType is set, and wLength is not 0.
pub(crate) fn reads(setup: [u8; 8]) -> bool {
    setup[0] & 0x80 != 0 && length(setup) > 0
}

/// wLength.
pub(crate) fn length(setup: [u8; 8]) -> usize {
    u16::from_le_bytes([setup[6], setup[7]]).into()
}

impl<F: NorFlash, K: HasKeyboard> Device<'_, F, K> {
    /// Makes a whole control transfer, as a host does (USB 2.0 section 8.5.3): a read puts what it reads into `data`, a write
    /// sends the first wLength bytes of `data`. At each NAK a flash operation is made.
    ///
    /// # Errors
    ///
    /// `Stall` with the reason, `Buffer` if `data` is too short, `Waits` if a NAK comes and no command works.
    ///
    /// ```
    /// use wuzhikar::{SimFlash, Why};
    /// use wuzhikar_device::{Device, Done, NotDone, Product};
    ///
    /// let mut device = Device::start(SimFlash::blank(2)?, &Product::TEST)?;
    /// let mut data = [0; 18];
    /// // GET_DESCRIPTOR of the device descriptor.
    /// let done = device.control([0x80, 0x06, 0, 1, 0, 0, 18, 0], &mut data);
    /// assert_eq!(done, Ok(Done { length: 18, change: None }));
    /// // A vendor's request that no keyboard has.
    /// let refused = device.control([0xc0, 1, 0, 0, 0, 0, 8, 0], &mut data);
    /// assert_eq!(refused, Err(NotDone::Stall(Why::UnknownRequest)));
    /// # Ok::<(), Box<dyn core::error::Error>>(())
    /// ```
    pub fn control(&mut self, setup: [u8; 8], data: &mut [u8]) -> Result<Done, NotDone> {
        self.control_with(setup, data, |device| match device.work() {
            Work::Idle => ControlFlow::Break(NotDone::Waits),
            Work::Working | Work::Settled | Work::Failed => ControlFlow::Continue(()),
        })
    }

    /// Makes a whole control transfer as [`control`](Self::control) does, but calls `at_nak` at each NAK. The packet is then
    /// offered again.
    ///
    /// # Errors
    ///
    /// `Stall`, `Buffer`, and what `at_nak` breaks off with.
    pub fn control_with(
        &mut self,
        setup: [u8; 8],
        data: &mut [u8],
        at_nak: impl FnMut(&mut Self) -> ControlFlow<NotDone>,
    ) -> Result<Done, NotDone> {
        if !reads(setup) && data.len() < length(setup) {
            return Err(NotDone::Buffer);
        }
        self.setup(setup);
        let mut bus = Bus { device: self, at_nak };
        if reads(setup) {
            let length = bus.read(length(setup), data)?;
            bus.out(&[])?;
            return Ok(Done { length, change: None });
        }
        let taken = &data[..length(setup)];
        for packet in taken.chunks(ENDPOINT_0_PACKET) {
            bus.out(packet)?;
        }
        let (_, change) = bus.in_packet()?;
        Ok(Done { length: taken.len(), change })
    }
}

/// A device whose packets are offered again at each NAK.
struct Bus<'b, 'a, F: NorFlash, K: HasKeyboard, N> {
    device: &'b mut Device<'a, F, K>,
    at_nak: N,
}

impl<'a, F, K, N> Bus<'_, 'a, F, K, N>
where
    F: NorFlash,
    K: HasKeyboard,
    N: FnMut(&mut Device<'a, F, K>) -> ControlFlow<NotDone>,
{
    /// Packets until one is short of 8 bytes, or all is there.
    fn read(&mut self, asked: usize, data: &mut [u8]) -> Result<usize, NotDone> {
        let mut length = 0;
        loop {
            let (packet, _) = self.in_packet()?;
            data.get_mut(length..length + packet.len()).ok_or(NotDone::Buffer)?.copy_from_slice(&packet);
            length += packet.len();
            if packet.len() < ENDPOINT_0_PACKET || length >= asked {
                return Ok(length);
            }
        }
    }

    fn in_packet(&mut self) -> Result<(arrayvec::ArrayVec<u8, ENDPOINT_0_PACKET>, Option<Change>), NotDone> {
        loop {
            match self.device.in_packet() {
                (EpAnswer::Packet(packet), change) => return Ok((packet, change)),
                (EpAnswer::Stall, _) => return Err(NotDone::Stall(self.device.why())),
                (EpAnswer::Nak | EpAnswer::Ack, _) => self.wait()?,
            }
        }
    }

    fn out(&mut self, packet: &[u8]) -> Result<(), NotDone> {
        loop {
            match self.device.out(packet) {
                EpAnswer::Ack => return Ok(()),
                EpAnswer::Stall => return Err(NotDone::Stall(self.device.why())),
                EpAnswer::Nak | EpAnswer::Packet(_) => self.wait()?,
            }
        }
    }

    fn wait(&mut self) -> Result<(), NotDone> {
        match (self.at_nak)(self.device) {
            ControlFlow::Continue(()) => Ok(()),
            ControlFlow::Break(not_done) => Err(not_done),
        }
    }
}
