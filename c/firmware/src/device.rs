// SPDX-License-Identifier: MIT OR Apache-2.0
//! `wz_device`: the keyboard behind its USB device layer, with both endpoints behind the driver of a controller.

use crate::driver::{Bus, Driver, Table as DriverTable, number_of};
use crate::edge::{Handle, Kept, Lasting, Value, with_codes};
use crate::flash::{Flash, Table};
use crate::keyboard::{Behind, code_of, paced, start_in};
use crate::layout::{Board, Codes, checked};
use crate::status::{Answer, Status};
use core::ffi::c_int;
use core_of_keyboard::UnstartedKeyboardOf;
use wuzhikar_device::{DeviceLayer, Identity, Interval, PacketSize, Power, Product, UsbDevice};

/// What a device keeps.
pub struct Device {
    codes: Option<&'static Codes>,
    bus: Bus,
    device: UsbDevice<'static, Behind, Bus>,
}

/// What is lent to it.
pub struct Memory {
    keyboard: UnstartedKeyboardOf<Board>,
    product: Option<Product<'static>>,
    driver: Option<Driver>,
}

impl Kept for Device {
    type Lent = Memory;
    const UNSTARTED: Memory = Memory { keyboard: UnstartedKeyboardOf::NEW, product: None, driver: None };
}

/// `wz_name`
#[repr(C)]
#[derive(Clone, Copy)]
pub struct Name {
    units: Lasting<u16>,
    length: usize,
}

/// `wz_identity`
#[repr(C)]
#[derive(Clone, Copy)]
pub struct IdentityIn {
    manufacturer: Name,
    product: Name,
    serial_number: Name,
    vendor_id: u16,
    product_id: u16,
    release: u16,
    milliamperes: u16,
    packet_size: u8,
    interval: u8,
    remote_wakeup: u8,
    country: u8,
}

impl IdentityIn {
    /// The identity. `Range` where a number of it is none that a descriptor can say.
    fn read(&self) -> Result<Identity<'static>, Status> {
        let name = |name: &Name| name.units.many(name.length);
        Ok(Identity {
            vendor_id: self.vendor_id,
            product_id: self.product_id,
            release: self.release,
            manufacturer: name(&self.manufacturer)?,
            product: name(&self.product)?,
            serial_number: name(&self.serial_number)?,
            packet_size: PacketSize::from_bytes(self.packet_size.into()).ok_or(Status::Range)?,
            interval: Interval::milliseconds(self.interval).ok_or(Status::Range)?,
            power: Power::milliamperes(self.milliamperes).ok_or(Status::Range)?,
            remote_wakeup: self.remote_wakeup != 0,
            country: self.country,
        })
    }
}

/// A call of the device, with its own default codes.
fn with(device: Handle<Device>, call: impl FnOnce(&mut Device) -> Answer) -> c_int {
    device.call(|kept| with_codes(kept.codes, || call(kept)))
}

/// A call that refuses nothing.
fn done(device: Handle<Device>, call: impl FnOnce(&mut Device)) -> c_int {
    with(device, |kept| {
        call(kept);
        Ok(0)
    })
}

#[unsafe(no_mangle)]
pub extern "C" fn wz_device_start(
    device: Handle<Device>,
    flash: Value<Table>,
    layout: Lasting<Codes>,
    pace: u16,
    identity: Value<IdentityIn>,
    driver: Value<DriverTable>,
) -> c_int {
    device.start(|memory| {
        let flash = Flash::from_table(&flash)?;
        let codes = checked(&layout)?;
        let identity = identity.get()?.read()?;
        let product: &'static Product<'static> = memory.product.insert(Product::new(identity));
        let bus = Bus(memory.driver.insert(Driver::from_table(&driver)?));
        let behind = start_in(&mut memory.keyboard, flash, codes, paced(pace)?)?;
        let layer = DeviceLayer::new(product.descriptors());
        Ok(Device { codes, bus, device: UsbDevice::new(layer, behind, bus, identity.packet_size) })
    })
}

#[unsafe(no_mangle)]
pub extern "C" fn wz_device_serve(device: Handle<Device>) -> c_int {
    done(device, |kept| kept.device.serve(&mut kept.bus))
}

#[unsafe(no_mangle)]
pub extern "C" fn wz_device_scan(device: Handle<Device>, rows: Value<[u16; 6]>) -> c_int {
    with(device, |kept| {
        kept.device.scan_rows(rows.get()?);
        Ok(0)
    })
}

#[unsafe(no_mangle)]
pub extern "C" fn wz_device_work(device: Handle<Device>) -> c_int {
    with(device, |kept| {
        kept.device.work();
        Ok(kept.device.behind().behind().may_work().into())
    })
}

#[unsafe(no_mangle)]
pub extern "C" fn wz_device_set_locked(device: Handle<Device>, locked: c_int) -> c_int {
    done(device, |kept| kept.device.set_locked(locked != 0))
}

#[unsafe(no_mangle)]
pub extern "C" fn wz_device_leds(device: Handle<Device>) -> c_int {
    with(device, |kept| Ok(kept.device.behind().behind().leds().into()))
}

#[unsafe(no_mangle)]
pub extern "C" fn wz_device_code(device: Handle<Device>, layer: u8, key: u8) -> c_int {
    with(device, |kept| code_of(kept.device.behind(), layer, key))
}

#[unsafe(no_mangle)]
pub extern "C" fn wz_device_is_first_start(device: Handle<Device>) -> c_int {
    with(device, |kept| Ok(kept.device.behind().behind().keyboard().is_first_start().into()))
}

#[unsafe(no_mangle)]
pub extern "C" fn wz_device_endpoint_1(device: Handle<Device>) -> c_int {
    with(device, |kept| Ok(number_of(kept.device.endpoint_1())))
}

#[unsafe(no_mangle)]
pub extern "C" fn wz_device_suspended(device: Handle<Device>) -> c_int {
    done(device, |kept| kept.device.suspended())
}

#[unsafe(no_mangle)]
pub extern "C" fn wz_device_resumed(device: Handle<Device>) -> c_int {
    done(device, |kept| kept.device.resumed())
}

#[unsafe(no_mangle)]
pub extern "C" fn wz_device_wakes(device: Handle<Device>) -> c_int {
    with(device, |kept| Ok(kept.device.wakes().into()))
}
