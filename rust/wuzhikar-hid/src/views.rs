//! What a device is, in a report of it: keys, a pointer, a pad, the contacts of a touch screen, pens. Written by hand: tested, not
//! proved; what is read is exported.

mod axis;
mod digitizer;

pub use axis::Axis;
pub use digitizer::{Contact, Pen, Touch};

use crate::usages::{button, consumer, generic_desktop, keyboard, simulation};
use crate::{Detail, Kind, Reader, ReadingError, Value, Within};
use alloc::vec::Vec;

/// The keys that are down.
#[derive(Clone, Debug, Default, PartialEq, Eq)]
pub struct Keys {
    /// Usages of the keyboard page, the consumer page and the system controls, rising, each once.
    pub down: Vec<u32>,
    /// ErrorRollOver, POSTFail or ErrorUndefined (HUT, section 10): the report doesn't say which keys are down.
    pub is_error: bool,
}

/// A mouse, a trackball or a touchpad that plays one.
#[derive(Clone, Copy, Debug, Default)]
pub struct Pointer<'r> {
    /// X, which is added where it [is relative](Axis::is_relative).
    pub x: Option<Axis<'r>>,
    /// Y.
    pub y: Option<Axis<'r>>,
    /// Steps of the wheel, away from the user.
    pub wheel: i64,
    /// Steps to the right (AC Pan).
    pub pan: i64,
    /// Button n in bit n - 1, up to 128.
    pub buttons: u128,
}

/// A gamepad, a joystick or a wheel.
#[derive(Clone, Debug, Default)]
pub struct Pad<'r> {
    /// X, Y, Z, Rx, Ry, Rz. No descriptor says where they rest.
    pub axes: [Option<Axis<'r>>; 6],
    /// Each hat switch, `None` at rest.
    pub hats: Vec<Option<Hat>>,
    /// Sliders, pedals and the like with their usages, of Generic Desktop and Simulation Controls.
    pub others: Vec<(u32, Axis<'r>)>,
    /// Button n in bit n - 1, up to 128.
    pub buttons: u128,
}

/// A direction of a hat switch.
#[derive(Clone, Copy, Debug, PartialEq, Eq)]
pub struct Hat {
    /// The step, from 0 for up, clockwise.
    pub step: u64,
    /// Of how many, as 8.
    pub of: u64,
}

impl Hat {
    /// Returns the degrees from up, clockwise.
    pub fn degrees(&self) -> f64 {
        360.0 * self.step as f64 / self.of as f64
    }
}

/// Whether a value says that its control is on: a Variable one other than 0, or one of an Array, which names its usage.
fn is_on(value: &Value, detail: &Detail) -> bool {
    value.within == Within::Range && (!detail.is_variable() || value.raw != 0)
}

/// Sets the bit of a usage of the button page.
fn press(buttons: &mut u128, usage: u32) {
    let number = usage.wrapping_sub(button::PAGE << 16);
    if (1..=128).contains(&number) {
        *buttons |= 1 << (number - 1);
    }
}

fn is_key(usage: u32) -> bool {
    let is_system =
        (generic_desktop::SYSTEM_POWER_DOWN..=generic_desktop::SYSTEM_DISPLAY_TOGGLE_LCD_AUTOSCALE).contains(&usage);
    is_system || (matches!(usage >> 16, keyboard::PAGE | consumer::PAGE) && usage & 0xffff != 0)
}

impl Reader {
    /// Takes the values of an input report that have a usage, with that and what their field declares.
    fn each<'r>(&'r self, report: &[u8], mut take: impl FnMut(u32, Value, &'r Detail)) -> Result<(), ReadingError> {
        for value in self.read(Kind::Input, report)? {
            if let (Some(usage), Some(detail)) = (value.usage, self.detail(value.field)) {
                take(usage, value, detail);
            }
        }
        Ok(())
    }

    /// Returns the keys that are down by an input report. Relative values, as AC Pan of a mouse, are none.
    ///
    /// # Errors
    ///
    /// As [`read`](Self::read).
    ///
    /// ```
    /// use wuzhikar_hid::{Reader, usages::keyboard};
    ///
    /// # let text = [
    /// #     0x05, 0x01, 0x09, 0x06, 0xa1, 0x01, 0x05, 0x07, 0x19, 0xe0, 0x29, 0xe7, 0x25, 0x01, 0x75, 0x01, 0x95, 0x08, 0x81, 0x02,
    /// #     0x81, 0x03, 0x19, 0x00, 0x29, 0xff, 0x26, 0xff, 0x00, 0x75, 0x08, 0x95, 0x06, 0x81, 0x00, 0xc0,
    /// # ];
    /// let reader = Reader::new(&text)?;
    /// let keys = reader.keys(&[2, 0, 4, 0, 0, 0, 0, 0])?;
    /// assert_eq!((keys.down, keys.is_error), (vec![keyboard::A, keyboard::LEFT_SHIFT], false));
    /// assert!(reader.keys(&[0, 0, 1, 1, 1, 1, 1, 1])?.is_error);
    /// # Ok::<(), Box<dyn std::error::Error>>(())
    /// ```
    pub fn keys(&self, report: &[u8]) -> Result<Keys, ReadingError> {
        let mut keys = Keys::default();
        self.each(report, |usage, value, detail| {
            if is_on(&value, detail) && is_key(usage) && !detail.is_relative() {
                match usage {
                    keyboard::ERROR_ROLL_OVER..=keyboard::ERROR_UNDEFINED => keys.is_error = true,
                    _ => keys.down.push(usage),
                }
            }
        })?;
        keys.down.sort_unstable();
        keys.down.dedup();
        Ok(keys)
    }

    /// Returns what a pointer does by an input report.
    ///
    /// # Errors
    ///
    /// As [`read`](Self::read).
    ///
    /// ```
    /// use wuzhikar_hid::Reader;
    ///
    /// # let text = [
    /// #     0x05, 0x01, 0x09, 0x02, 0xa1, 0x01, 0x05, 0x09, 0x19, 0x01, 0x29, 0x08, 0x25, 0x01, 0x75, 0x01, 0x95, 0x08, 0x81, 0x02,
    /// #     0x05, 0x01, 0x09, 0x30, 0x09, 0x31, 0x09, 0x38, 0x15, 0x81, 0x25, 0x7f, 0x75, 0x08, 0x95, 0x03, 0x81, 0x06, 0xc0,
    /// # ];
    /// let reader = Reader::new(&text)?;
    /// let pointer = reader.pointer(&[0b100, 5, 0xfd, 1])?;
    /// let x = pointer.x.unwrap();
    /// assert_eq!((x.raw, x.is_relative(), pointer.wheel, pointer.buttons), (5, true, 1, 0b100));
    /// # Ok::<(), Box<dyn std::error::Error>>(())
    /// ```
    pub fn pointer(&self, report: &[u8]) -> Result<Pointer<'_>, ReadingError> {
        let mut pointer = Pointer::default();
        self.each(report, |usage, value, detail| {
            let axis = Axis { raw: value.raw, detail };
            match usage {
                _ if value.within == Within::Null => {}
                generic_desktop::X => pointer.x = pointer.x.or(Some(axis)),
                generic_desktop::Y => pointer.y = pointer.y.or(Some(axis)),
                generic_desktop::WHEEL => pointer.wheel += value.raw,
                consumer::AC_PAN => pointer.pan += value.raw,
                _ if is_on(&value, detail) => press(&mut pointer.buttons, usage),
                _ => {}
            }
        })?;
        Ok(pointer)
    }

    /// Returns where the controls of a gamepad or a joystick are by an input report. An axis whose value is outside its extents
    /// has none.
    ///
    /// # Errors
    ///
    /// As [`read`](Self::read).
    ///
    /// ```
    /// use wuzhikar_hid::{Hat, Reader};
    ///
    /// // The hat is 0 to 7 without Null State, and the stick 0 to 255.
    /// # let text = [
    /// #     0x05, 0x01, 0x09, 0x05, 0xa1, 0x01, 0x09, 0x39, 0x25, 0x07, 0x46, 0x3b, 0x01, 0x65, 0x14, 0x75, 0x08, 0x95, 0x01, 0x81,
    /// #     0x02, 0x65, 0x00, 0x45, 0x00, 0x09, 0x30, 0x26, 0xff, 0x00, 0x81, 0x02, 0xc0,
    /// # ];
    /// let reader = Reader::new(&text)?;
    /// let pad = reader.pad(&[2, 255])?;
    /// assert_eq!(pad.hats, [Some(Hat { step: 2, of: 8 })]);
    /// assert_eq!(pad.axes[0].and_then(|axis| axis.centred()), Some(1.0));
    /// assert_eq!(reader.pad(&[8, 0])?.hats, [None]);
    /// # Ok::<(), Box<dyn std::error::Error>>(())
    /// ```
    pub fn pad(&self, report: &[u8]) -> Result<Pad<'_>, ReadingError> {
        let mut pad = Pad::default();
        self.each(report, |usage, value, detail| {
            let (axis, is_there) = (Axis { raw: value.raw, detail }, value.within == Within::Range && detail.is_variable());
            match (usage, usage >> 16) {
                (generic_desktop::HAT_SWITCH, _) => pad.hats.push(is_there.then(|| Hat {
                    step: value.raw.abs_diff(detail.min),
                    of: detail.max.abs_diff(detail.min).saturating_add(1),
                })),
                (generic_desktop::X..=generic_desktop::RZ, _) if is_there => {
                    let place = &mut pad.axes[(usage - generic_desktop::X) as usize];
                    *place = place.or(Some(axis));
                }
                (_, button::PAGE) if is_on(&value, detail) => press(&mut pad.buttons, usage),
                (_, generic_desktop::PAGE | simulation::PAGE) if is_there => pad.others.push((usage, axis)),
                _ => {}
            }
        })?;
        Ok(pad)
    }
}

#[cfg(test)]
mod tests;
