// SPDX-License-Identifier: MIT OR Apache-2.0

//! What a loop reaches through the device behind buffers.

use crate::keys::{HasKeyboard, Keys};
use crate::{Buffers, Endpoint1, Endpoints, EpAnswer, Guarded, UsbDevice};
use wuzhikar::NorFlash;
use wuzhikar::usb::FEATURE_REPORT_LEN;

impl<E, B> UsbDevice<'_, E, B> {
    /// Returns the device behind the layer, to look at it.
    pub fn behind(&self) -> &E {
        &self.device.behind
    }

    /// Lends the device behind the layer, for calls that the bus does not see.
    ///
    /// **Needs** that none of its calls of [`Endpoints`] is made. Nothing checks it.
    pub fn behind_mut(&mut self) -> &mut E {
        &mut self.device.behind
    }

    /// Drops all else, and returns the device behind the layer.
    pub fn into_behind(self) -> E {
        self.device.behind
    }
}

impl<E: Endpoints, B: Buffers> UsbDevice<'_, E, B> {
    /// Returns whether endpoint 1 is off, ready or halted (USB 2.0 section 9.4.5).
    pub fn endpoint_1(&self) -> Endpoint1 {
        self.device.layer.endpoint_1()
    }

    /// Returns whether the host has enabled remote wakeup (USB 2.0 section 9.4.5).
    pub fn may_wake(&self) -> bool {
        self.device.layer.may_wake()
    }
}

impl<E> Guarded<E> {
    /// Returns the device that is guarded, to look at it.
    pub fn behind(&self) -> &E {
        &self.behind
    }
}

impl<F: NorFlash, K: HasKeyboard, B: Buffers> UsbDevice<'_, Keys<F, K>, B> {
    /// Makes a command of the firmware's own, for example at a chord of keys. The report is feature report 3; its operation 3
    /// resets all keys (`[3, 3, 0, 0, 0, 0]`). After `Ack` call `work`: the command is over when `work` answers other than
    /// `Working`.
    ///
    /// The answer is `Nak` while a transfer of the host is under way or another command works; nothing has changed then. It is
    /// `Stall` if the command is refused. Operation 0 is refused, since it would change what the host has selected.
    pub fn command(&mut self, report: [u8; FEATURE_REPORT_LEN]) -> EpAnswer {
        if self.control.is_over() { self.behind_mut().command(report) } else { EpAnswer::Nak }
    }
}
