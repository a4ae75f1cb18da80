// SPDX-License-Identifier: MIT OR Apache-2.0
//! `wz_keyboard`: the keyboard with its flash, for a firmware whose USB stack is another's or its own.

use crate::edge::{Handle, Input, Kept, Lasting, Output, Room, Value, with_codes};
use crate::flash::{Flash, Table};
use crate::layout::{Board, Codes, checked};
use crate::status::{Answer, Status, told};
use core::ffi::c_int;
use core_of_keyboard::usb::{CONFIGURATION_DESCRIPTOR, DEVICE_DESCRIPTOR, HID_DESCRIPTOR, REPORT_DESCRIPTOR};
use core_of_keyboard::{KeyNo, KeyboardOf, LayerNo, Protocol, UnstartedKeyboardOf};
use wuzhikar_device::{Endpoints, EpAnswer, Guarded, Keys, ScansMatrix, TransferError, Works, read, write};

/// The device behind the calls of the bus.
pub type Behind = Guarded<Keys<Flash, &'static mut KeyboardOf<Board>>>;

/// What a keyboard keeps.
pub struct Keyboard {
    codes: Option<&'static Codes>,
    device: Behind,
}

impl Kept for Keyboard {
    type Lent = UnstartedKeyboardOf<Board>;
    const UNSTARTED: UnstartedKeyboardOf<Board> = UnstartedKeyboardOf::NEW;
}

/// The longest pace, in scans.
const MOST_PACE: u16 = 4000;

/// The most steps that a command takes, and the question behind them.
const STEPS: u16 = 388;

/// The most bytes of a control write.
const MOST_BYTES: usize = 0xffff;

/// The bytes of the longest report of endpoint 1.
const REPORT: usize = 23;

/// The pace. `Range` for more than 4,000 scans.
pub fn paced(pace: u16) -> Result<u16, Status> {
    if pace > MOST_PACE { Err(Status::Range) } else { Ok(pace) }
}

/// Starts a keyboard in memory that is lent, with these default codes.
pub fn start_in(
    memory: &'static mut UnstartedKeyboardOf<Board>,
    flash: Flash,
    codes: Option<&'static Codes>,
    pace: u16,
) -> Result<Behind, Status> {
    with_codes(codes, || Keys::start_in(memory, flash)).map(|keys| Guarded::new(keys, pace)).map_err(|_| Status::Pages)
}

/// A call of the device, with its own default codes.
fn with(keyboard: Handle<Keyboard>, call: impl FnOnce(&mut Behind) -> Answer) -> c_int {
    keyboard.call(|kept| with_codes(kept.codes, || call(&mut kept.device)))
}

/// Why a whole transfer failed.
fn why(error: TransferError) -> Status {
    match error {
        TransferError::Refused => Status::Stall,
        TransferError::Busy => Status::Later,
        TransferError::Unfinished => Status::Unfinished,
    }
}

/// The answer to a packet of endpoint 0.
fn answered(answer: EpAnswer, room: Option<Room<u8>>) -> Answer {
    match (answer, room) {
        (EpAnswer::Packet(packet), Some(room)) => room.put(&packet),
        (EpAnswer::Ack, _) | (EpAnswer::Packet(_), None) => Ok(0),
        (EpAnswer::Nak, _) => Err(Status::Nak),
        (EpAnswer::Stall, _) => Err(Status::Stall),
    }
}

/// The code of a key on a layer.
pub fn code_of(device: &Behind, layer: u8, key: u8) -> Answer {
    match (LayerNo::read(layer), KeyNo::read(key)) {
        (Ok(layer), Ok(key)) => Ok(device.behind().keyboard().keymap().get(layer, key).bits().into()),
        _ => Err(Status::Range),
    }
}

#[unsafe(no_mangle)]
pub extern "C" fn wz_keyboard_start(
    keyboard: Handle<Keyboard>,
    flash: Value<Table>,
    layout: Lasting<Codes>,
    pace: u16,
) -> c_int {
    keyboard.start(|memory| {
        let flash = Flash::from_table(&flash)?;
        let codes = checked(&layout)?;
        Ok(Keyboard { codes, device: start_in(memory, flash, codes, paced(pace)?)? })
    })
}

#[unsafe(no_mangle)]
pub extern "C" fn wz_keyboard_scan(keyboard: Handle<Keyboard>, rows: Value<[u16; 6]>) -> c_int {
    with(keyboard, |device| {
        device.scan(rows.get()?);
        Ok(0)
    })
}

#[unsafe(no_mangle)]
pub extern "C" fn wz_keyboard_work(keyboard: Handle<Keyboard>) -> c_int {
    with(keyboard, |device| {
        device.work();
        Ok(device.behind().may_work().into())
    })
}

#[unsafe(no_mangle)]
pub extern "C" fn wz_keyboard_poll(keyboard: Handle<Keyboard>, report: Output<u8>) -> c_int {
    with(keyboard, |device| {
        let room = report.room(REPORT)?;
        room.put(&device.poll().ok_or(Status::Nak)?)
    })
}

#[unsafe(no_mangle)]
pub extern "C" fn wz_keyboard_bus_reset(keyboard: Handle<Keyboard>) -> c_int {
    with(keyboard, |device| {
        device.bus_reset();
        Ok(0)
    })
}

#[unsafe(no_mangle)]
pub extern "C" fn wz_keyboard_set_locked(keyboard: Handle<Keyboard>, locked: c_int) -> c_int {
    with(keyboard, |device| {
        device.set_locked(locked != 0);
        Ok(0)
    })
}

#[unsafe(no_mangle)]
pub extern "C" fn wz_keyboard_leds(keyboard: Handle<Keyboard>) -> c_int {
    with(keyboard, |device| Ok(device.behind().leds().into()))
}

#[unsafe(no_mangle)]
pub extern "C" fn wz_keyboard_is_boot(keyboard: Handle<Keyboard>) -> c_int {
    with(keyboard, |device| Ok((device.behind().keyboard().protocol() == Protocol::Boot).into()))
}

#[unsafe(no_mangle)]
pub extern "C" fn wz_keyboard_is_first_start(keyboard: Handle<Keyboard>) -> c_int {
    with(keyboard, |device| Ok(device.behind().keyboard().is_first_start().into()))
}

#[unsafe(no_mangle)]
pub extern "C" fn wz_keyboard_code(keyboard: Handle<Keyboard>, layer: u8, key: u8) -> c_int {
    with(keyboard, |device| code_of(device, layer, key))
}

#[unsafe(no_mangle)]
pub extern "C" fn wz_keyboard_write(
    keyboard: Handle<Keyboard>,
    setup: Value<[u8; 8]>,
    data: Input<u8>,
    length: usize,
) -> c_int {
    with(keyboard, |device| {
        let (setup, data) = (setup.get()?, data.get(length, MOST_BYTES)?);
        write(device, setup, data, STEPS).map(|()| 0).map_err(why)
    })
}

#[unsafe(no_mangle)]
pub extern "C" fn wz_keyboard_read(
    keyboard: Handle<Keyboard>,
    setup: Value<[u8; 8]>,
    data: Output<u8>,
    room: usize,
) -> c_int {
    with(keyboard, |device| {
        let (setup, room) = (setup.get()?, data.room(room)?);
        room.put(&read(device, setup).map_err(why)?)
    })
}

#[unsafe(no_mangle)]
pub extern "C" fn wz_keyboard_setup(keyboard: Handle<Keyboard>, packet: Value<[u8; 8]>) -> c_int {
    with(keyboard, |device| {
        device.setup(packet.get()?);
        Ok(0)
    })
}

#[unsafe(no_mangle)]
pub extern "C" fn wz_keyboard_out(keyboard: Handle<Keyboard>, packet: Input<u8>, length: usize) -> c_int {
    with(keyboard, |device| answered(device.out(packet.get(length, 8)?), None))
}

#[unsafe(no_mangle)]
pub extern "C" fn wz_keyboard_in(keyboard: Handle<Keyboard>, packet: Output<u8>) -> c_int {
    with(keyboard, |device| {
        let room = packet.room(8)?;
        answered(device.in_packet(), Some(room))
    })
}

#[unsafe(no_mangle)]
pub extern "C" fn wz_descriptor(kind: u8, bytes: Output<*const u8>) -> c_int {
    let lent = || -> Answer {
        let place = bytes.room(1)?;
        let bytes: &'static [u8] = match kind {
            1 => &DEVICE_DESCRIPTOR,
            2 => &CONFIGURATION_DESCRIPTOR,
            0x21 => &HID_DESCRIPTOR,
            0x22 => &REPORT_DESCRIPTOR,
            _ => return Err(Status::Absent),
        };
        place.set(0, bytes.as_ptr());
        Ok(bytes.len() as c_int)
    };
    told(lent())
}
