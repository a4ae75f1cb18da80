// SPDX-License-Identifier: MIT OR Apache-2.0

//! Drivers of USB controllers. Each is a module to be copied, with the folder of its name.
#![cfg_attr(not(test), no_std)]

pub mod dwc2_usb;
pub mod rp2040_usb;
pub mod stm32_usb;
