// SPDX-License-Identifier: MIT OR Apache-2.0
//! The calls of `hid_reader.h` that say what a device is, in a report of it.

use crate::edge::{Input, Output, Outputs, Place};
use crate::handles::{both, put_made, told, with_reader};
use crate::status::Status;
use wuzhikar_hid::{Axis, Contact, Pad, Pen, Reader, ReadingError};

/// `hidr_axis`
#[repr(C)]
#[derive(Clone, Copy)]
pub struct AxisOut {
    share: f64,
    centred: f64,
    millimetres: f64,
    degrees: f64,
    raw: i64,
    min: i64,
    max: i64,
    is_there: u8,
    is_relative: u8,
}

/// `hidr_pointer`
#[repr(C)]
#[derive(Clone, Copy)]
pub struct PointerOut {
    x: AxisOut,
    y: AxisOut,
    wheel: i64,
    pan: i64,
    buttons: [u64; 2],
}

/// `hidr_hat`
#[repr(C)]
#[derive(Clone, Copy)]
pub struct HatOut {
    step: u64,
    of: u64,
}

/// `hidr_control`
#[repr(C)]
#[derive(Clone, Copy)]
pub struct ControlOut {
    axis: AxisOut,
    usage: u32,
}

/// `hidr_pad`
#[repr(C)]
#[derive(Clone, Copy)]
pub struct PadOut {
    axes: [AxisOut; 6],
    buttons: [u64; 2],
    hats: [HatOut; 4],
    others: [ControlOut; 8],
    hat_count: u32,
    other_count: u32,
}

/// `hidr_contact`
#[repr(C)]
#[derive(Clone, Copy)]
pub struct ContactOut {
    x: AxisOut,
    y: AxisOut,
    pressure: AxisOut,
    id: i64,
    has_id: u8,
    touches: u8,
    is_valid: u8,
}

/// `hidr_pen`
#[repr(C)]
#[derive(Clone, Copy)]
pub struct PenOut {
    x: AxisOut,
    y: AxisOut,
    pressure: AxisOut,
    tilt: [AxisOut; 2],
    in_range: u8,
    touches: u8,
    erases: u8,
    is_inverted: u8,
    buttons: [u8; 2],
}

/// An axis, or zeros and no numbers where there is none.
fn axis_out(axis: Option<Axis>) -> AxisOut {
    let number = |number: Option<f64>| number.unwrap_or(f64::NAN);
    let (raw, min, max) = axis.map_or((0, 0, 0), |axis| (axis.raw, axis.detail.min, axis.detail.max));
    AxisOut {
        share: number(axis.and_then(|axis| axis.share())),
        centred: number(axis.and_then(|axis| axis.centred())),
        millimetres: number(axis.and_then(|axis| axis.millimetres())),
        degrees: number(axis.and_then(|axis| axis.degrees())),
        raw,
        min,
        max,
        is_there: axis.is_some().into(),
        is_relative: axis.is_some_and(|axis| axis.is_relative()).into(),
    }
}

/// Buttons 1 to 64, and 65 to 128.
fn buttons_out(buttons: u128) -> [u64; 2] {
    [buttons as u64, (buttons >> 64) as u64]
}

fn pad_out(pad: &Pad) -> PadOut {
    let hat = |number: usize| pad.hats.get(number).copied().flatten().map_or((0, 0), |hat| (hat.step, hat.of));
    let other = |number: usize| pad.others.get(number).copied().map_or((0, None), |(usage, axis)| (usage, Some(axis)));
    PadOut {
        axes: pad.axes.map(axis_out),
        buttons: buttons_out(pad.buttons),
        hats: core::array::from_fn(|number| HatOut { step: hat(number).0, of: hat(number).1 }),
        others: core::array::from_fn(|number| ControlOut { axis: axis_out(other(number).1), usage: other(number).0 }),
        hat_count: pad.hats.len() as u32,
        other_count: pad.others.len() as u32,
    }
}

fn contact_out(contact: Contact) -> ContactOut {
    ContactOut {
        x: axis_out(contact.x),
        y: axis_out(contact.y),
        pressure: axis_out(contact.pressure),
        id: contact.id.unwrap_or(0),
        has_id: contact.id.is_some().into(),
        touches: contact.touches.into(),
        is_valid: contact.is_valid.map_or(2, u8::from),
    }
}

fn pen_out(pen: Pen) -> PenOut {
    PenOut {
        x: axis_out(pen.x),
        y: axis_out(pen.y),
        pressure: axis_out(pen.pressure),
        tilt: pen.tilt.map(axis_out),
        in_range: pen.in_range.into(),
        touches: pen.touches.into(),
        erases: pen.erases.into(),
        is_inverted: pen.is_inverted.into(),
        buttons: pen.buttons.map(u8::from),
    }
}

/// A view of one struct.
fn one<T: Copy>(
    reader: u64,
    report: Result<&[u8], Status>,
    into: Output<T>,
    view: impl FnOnce(&Reader, &[u8]) -> Result<T, ReadingError>,
) -> Status {
    told(|| {
        let (into, report): (Place<T>, &[u8]) = both(into.place(), report)?;
        into.put(with_reader(reader, |reader| Ok(view(reader, report)?))?);
        Ok(())
    })
}

#[unsafe(no_mangle)]
pub extern "C" fn hidr_view_keys(
    reader: u64,
    report: Input,
    length: usize,
    into: Outputs<u32>,
    room: usize,
    count: Output<usize>,
    is_error: Output<u8>,
) -> Status {
    let mut failed = 0;
    let status = put_made(reader, report.bytes(length), (into, room, count), |reader, report| {
        let keys = reader.keys(report)?;
        failed = keys.is_error.into();
        Ok(keys.down)
    });
    if let (Status::Ok, Some(place)) = (&status, is_error.place_if_any()) {
        place.put(failed);
    }
    status
}

#[unsafe(no_mangle)]
pub extern "C" fn hidr_view_pointer(reader: u64, report: Input, length: usize, into: Output<PointerOut>) -> Status {
    one(reader, report.bytes(length), into, |reader, report| {
        let pointer = reader.pointer(report)?;
        let [x, y] = [pointer.x, pointer.y].map(axis_out);
        Ok(PointerOut { x, y, wheel: pointer.wheel, pan: pointer.pan, buttons: buttons_out(pointer.buttons) })
    })
}

#[unsafe(no_mangle)]
pub extern "C" fn hidr_view_pad(reader: u64, report: Input, length: usize, into: Output<PadOut>) -> Status {
    one(reader, report.bytes(length), into, |reader, report| Ok(pad_out(&reader.pad(report)?)))
}

#[unsafe(no_mangle)]
pub extern "C" fn hidr_view_touch(
    reader: u64,
    report: Input,
    length: usize,
    into: Outputs<ContactOut>,
    room: usize,
    count: Output<usize>,
) -> Status {
    put_made(reader, report.bytes(length), (into, room, count), |reader, report| {
        Ok(reader.touch(report)?.contacts.into_iter().map(contact_out).collect())
    })
}

#[unsafe(no_mangle)]
pub extern "C" fn hidr_view_pens(
    reader: u64,
    report: Input,
    length: usize,
    into: Outputs<PenOut>,
    room: usize,
    count: Output<usize>,
) -> Status {
    put_made(reader, report.bytes(length), (into, room, count), |reader, report| {
        Ok(reader.pens(report)?.into_iter().map(pen_out).collect())
    })
}
