//! A reader of HID report descriptors for drivers (HID 1.11). It says what each field of a report means, reads the values of
//! reports, and makes reports from values. It builds on `wuzhikar-reader`.
//!
//! A [`Reader`] is made once of a report descriptor. [`Reader::read`] gives the values of a report of any kind,
//! [`Reader::write`] makes one, [`Reader::details`] says what the fields mean, [`UsageName`] names usages, and [`usages`] has
//! them as constants.
//!
//! ```
//! use wuzhikar_hid::{Asked, Kind, Reader, Setting, Target, UsageName, Within, usages::generic_desktop};
//!
//! // A hat switch: 1 to 8 for eight directions, 0 to 315 degrees, anything else for none.
//! let text = [
//!     0x05, 0x01, 0x09, 0x05, 0xa1, 0x01, 0x09, 0x39, 0x15, 0x01, 0x25, 0x08, 0x35, 0x00, 0x46, 0x3b, 0x01, 0x65, 0x14,
//!     0x75, 0x08, 0x95, 0x01, 0x81, 0x42, 0xc0,
//! ];
//! let reader = Reader::new(&text)?;
//! let hat = reader.detail(0).unwrap();
//! assert!(hat.has_null_state());
//! assert_eq!(hat.unit_name(), Some("degree"));
//! assert_eq!(reader.details().application(0), Some(0));
//!
//! let east = reader.read(Kind::Input, &[3])?.next().unwrap();
//! assert_eq!(UsageName(east.usage.unwrap()).to_string(), "Hat Switch");
//! assert_eq!(hat.physical_value(east.raw)?.decimal(1), "90");
//!
//! let rest = reader.read(Kind::Input, &[0])?.next().unwrap();
//! assert_eq!(rest.within, Within::Null);
//!
//! let target = Target::Usage { usage: generic_desktop::HAT_SWITCH, place: 0 };
//! let report = reader.write(Kind::Input, 0, &[Setting { target, asked: Asked::Value(5) }], None)?;
//! assert_eq!(report, [5]);
//! # Ok::<(), Box<dyn std::error::Error>>(())
//! ```
//!
//! A usage is a 32-bit number: the usage page in the high half, the usage ID in the low half. X is `0x0001_0030`, which is
//! [`usages::generic_desktop::X`], and button 3 `0x0009_0003`. An ID of 0 names no control: an Array whose places are free
//! mostly names such a usage.
//!
//! On Linux the bytes of a device are the file `/sys/class/hidraw/hidraw0/device/report_descriptor`. Each read of
//! `/dev/hidraw0` gives a report as [`Reader::read`] takes it, with its ID if IDs are used.
//!
//! # What a device is
//!
//! The Application collections say it, and each has its reports. [`details()`] needs no [`Reader`].
//!
//! ```
//! use wuzhikar_hid::{Kind, UsageName, details};
//!
//! // A keyboard by report 1, and two keys for the volume by report 2.
//! # let text = [
//! #     0x05, 0x01, 0x09, 0x06, 0xa1, 0x01, 0x85, 1, 0x05, 0x07, 0x19, 0xe0, 0x29, 0xe7, 0x25, 0x01, 0x75, 0x01, 0x95, 0x08, 0x81,
//! #     0x02, 0xc0, 0x05, 0x0c, 0x09, 0x01, 0xa1, 0x01, 0x85, 2, 0x09, 0xe9, 0x09, 0xea, 0x95, 0x02, 0x81, 0x02, 0x95, 0x06, 0x81,
//! #     0x03, 0xc0,
//! # ];
//! let details = details(&text)?;
//! let mut told = Vec::new();
//! for (place, application) in details.applications() {
//!     let name = application.usage.map(|usage| UsageName(usage).to_string());
//!     told.push((name.unwrap_or_default(), details.reports_of(place).collect::<Vec<_>>()));
//! }
//! assert_eq!(told[0], ("Keyboard".to_string(), vec![(Kind::Input, 1)]));
//! assert_eq!(told[1], ("Consumer Control".to_string(), vec![(Kind::Input, 2)]));
//! assert_eq!(details.collections[0].kind_name(), Some("Application"));
//! // The bytes of each report without its ID, and the padding.
//! assert!(details.reports().map(|report| (report.id, report.bytes())).eq([(1, 1), (2, 1)]));
//! assert!(details.padding().map(|placed| (placed.place, placed.detail.count)).eq([(2, 6)]));
//! # Ok::<(), Box<dyn std::error::Error>>(())
//! ```
//!
//! # A mouse
//!
//! The application says what a device is. A value of a field that is relative is added, any other is where the axis is.
//!
//! ```
//! use wuzhikar_hid::usages::{button, generic_desktop};
//! use wuzhikar_hid::{Kind, Reader};
//!
//! # let text = [
//! #     0x05, 0x01, 0x09, 0x02, 0xa1, 0x01, 0x05, 0x09, 0x19, 0x01, 0x29, 0x08, 0x25, 0x01, 0x75, 0x01, 0x95, 0x08, 0x81, 0x02,
//! #     0x05, 0x01, 0x09, 0x30, 0x09, 0x31, 0x15, 0x81, 0x25, 0x7f, 0x75, 0x08, 0x95, 0x02, 0x81, 0x06, 0xc0,
//! # ];
//! let reader = Reader::new(&text)?;
//! assert!(reader.details().applications().any(|(_, application)| application.usage == Some(generic_desktop::MOUSE)));
//! let (mut x, mut y, mut buttons) = (0, 0, Vec::new());
//! for report in [[0x01, 5, 0xfd], [0x00, 2, 0]] {
//!     buttons.clear();
//!     for value in reader.read(Kind::Input, &report)? {
//!         let is_relative = reader.detail(value.field).is_some_and(|detail| detail.is_relative());
//!         match value.usage {
//!             Some(generic_desktop::X) => x = if is_relative { x + value.raw } else { value.raw },
//!             Some(generic_desktop::Y) => y = if is_relative { y + value.raw } else { value.raw },
//!             Some(usage) if usage >> 16 == button::PAGE && value.raw != 0 => buttons.push(usage & 0xffff),
//!             _ => {}
//!         }
//!     }
//! }
//! assert_eq!((x, y, buttons), (7, -3, vec![]));
//! # Ok::<(), Box<dyn std::error::Error>>(())
//! ```
//!
//! # A keyboard
//!
//! A key is down until a later report lacks it. [`Reader::changes`] says in which usages two reports of an ID differ.
//!
//! ```
//! use wuzhikar_hid::usages::keyboard;
//! use wuzhikar_hid::{Kind, Reader};
//!
//! # let text = [
//! #     0x05, 0x01, 0x09, 0x06, 0xa1, 0x01, 0x05, 0x07, 0x19, 0xe0, 0x29, 0xe7, 0x25, 0x01, 0x75, 0x01, 0x95, 0x08, 0x81, 0x02,
//! #     0x81, 0x03, 0x19, 0x00, 0x29, 0xff, 0x26, 0xff, 0x00, 0x75, 0x08, 0x95, 0x06, 0x81, 0x00, 0xc0,
//! # ];
//! let reader = Reader::new(&text)?;
//! let (before, now) = ([0, 0, 4, 5, 0, 0, 0, 0], [2, 0, 5, 6, 0, 0, 0, 0]);
//! let changed = reader.changes(Kind::Input, &before, &now)?;
//! assert_eq!(changed.pressed, [keyboard::C, keyboard::LEFT_SHIFT]);
//! assert_eq!(changed.released, [keyboard::A]);
//! # Ok::<(), Box<dyn std::error::Error>>(())
//! ```
//!
//! # A gamepad
//!
//! A hat switch is at rest where its value is [`Within::Null`], or [`Within::Out`], since there are devices that don't declare
//! Null State. An axis goes from [`Detail::min`] to [`Detail::max`]; [`Detail::physical_value`] is what a value is in its unit.
//! No descriptor says where an axis rests: a driver takes the middle for a stick, and the Logical Minimum for a pedal.
//!
//! ```
//! use wuzhikar_hid::{Kind, Reader, Within, usages::generic_desktop};
//!
//! // The hat is 0 to 7 without Null State, and the stick 0 to 255.
//! # let text = [
//! #     0x05, 0x01, 0x09, 0x05, 0xa1, 0x01, 0x09, 0x39, 0x25, 0x07, 0x46, 0x3b, 0x01, 0x65, 0x14, 0x75, 0x08, 0x95, 0x01, 0x81,
//! #     0x02, 0x65, 0x00, 0x45, 0x00, 0x09, 0x30, 0x26, 0xff, 0x00, 0x81, 0x02, 0xc0,
//! # ];
//! let reader = Reader::new(&text)?;
//! let mut told = Vec::new();
//! for report in [[2, 0], [8, 128]] {
//!     let (mut hat, mut stick) = (None, 0.0);
//!     for value in reader.read(Kind::Input, &report)? {
//!         let Some(detail) = reader.detail(value.field) else { continue };
//!         match (value.usage, value.within) {
//!             (Some(generic_desktop::HAT_SWITCH), Within::Range) => hat = Some(detail.physical_value(value.raw)?.decimal(0)),
//!             (Some(generic_desktop::HAT_SWITCH), _) => hat = None,
//!             (Some(generic_desktop::X), Within::Range) if detail.min < detail.max => {
//!                 let half = (detail.max - detail.min + 1) / 2;
//!                 stick = (value.raw - detail.min - half) as f64 / half as f64;
//!             }
//!             _ => {}
//!         }
//!     }
//!     told.push((hat, stick));
//! }
//! assert_eq!(told, [(Some("90".to_string()), -1.0), (None, 0.0)]);
//! # Ok::<(), Box<dyn std::error::Error>>(())
//! ```
//!
//! # A touch screen
//!
//! The values of one finger are those in the same Finger collection. [`Detail::inside`], the innermost collection, may hold
//! X and Y alone, so look for the Finger in [`Details::around`]. Tip Switch says whether it touches, and Contact
//! Identifier which finger it is from report to report. Only so many fingers of a report are contacts as Contact Count says.
//! A device may have other applications, so [`Reader::placed`] says which one a value belongs to.
//!
//! ```
//! use std::collections::BTreeMap;
//! use wuzhikar_hid::usages::{digitizers, generic_desktop};
//! use wuzhikar_hid::{Kind, Reader};
//!
//! // Two fingers, whose X stands in a collection of its own.
//! # let finger = [
//! #     0x05, 0x0d, 0x09, 0x22, 0xa1, 0x02, 0x09, 0x42, 0x25, 0x01, 0x75, 0x01, 0x95, 0x01, 0x81, 0x02, 0x95, 0x07, 0x81, 0x03,
//! #     0x09, 0x51, 0x25, 0x7f, 0x75, 0x08, 0x95, 0x01, 0x81, 0x02, 0x05, 0x01, 0x09, 0x01, 0xa1, 0x00, 0x09, 0x30, 0x81, 0x02,
//! #     0xc0, 0xc0,
//! # ];
//! # let count = [0x05, 0x0d, 0x09, 0x54, 0x81, 0x02, 0xc0];
//! # let text = [&[0x05, 0x0d, 0x09, 0x04, 0xa1, 0x01][..], &finger, &finger, &count].concat();
//! let reader = Reader::new(&text)?;
//! let details = reader.details();
//! let screen = details.applications().find(|(_, application)| application.usage == Some(digitizers::TOUCH_SCREEN));
//! let mut fingers: BTreeMap<usize, (bool, i64, i64)> = BTreeMap::new();
//! let mut count = usize::MAX;
//! for value in reader.read(Kind::Input, &[0x01, 0, 40, 0x00, 0, 0, 1])? {
//!     let Some(placed) = reader.placed(value.field) else { continue };
//!     if details.application(placed.place) != screen.map(|(place, _)| place) {
//!         continue;
//!     }
//!     if value.usage == Some(digitizers::CONTACT_COUNT) {
//!         count = usize::try_from(value.raw)?;
//!     }
//!     let mut around = details.around(placed.place);
//!     let Some(finger) = around.find(|place| details.collections[*place].usage == Some(digitizers::FINGER)) else { continue };
//!     let (touches, number, x) = fingers.entry(finger).or_default();
//!     match value.usage {
//!         Some(digitizers::TIP_SWITCH) => *touches = value.raw != 0,
//!         Some(digitizers::CONTACT_IDENTIFIER) => *number = value.raw,
//!         Some(generic_desktop::X) => *x = value.raw,
//!         _ => {}
//!     }
//! }
//! assert_eq!(fingers.into_values().take(count).collect::<Vec<_>>(), [(true, 0, 40)]);
//! # Ok::<(), Box<dyn std::error::Error>>(())
//! ```
//!
//! # A report that is refused
//!
//! [`ReadingError`] says why. A driver drops the report, keeps its last state and reads the next one. Without Report IDs a
//! report of another kind can't be told by its first byte.
//!
//! ```
//! use wuzhikar_hid::{Kind, Reader, ReadingError};
//!
//! // Two axes of a byte each.
//! let text = [0x05, 0x01, 0x09, 0x30, 0x09, 0x31, 0x25, 0x7f, 0x75, 8, 0x95, 2, 0x81, 0x02];
//! let reader = Reader::new(&text)?;
//! assert_eq!(reader.read(Kind::Input, &[1]).err(), Some(ReadingError::Short));
//! assert_eq!(reader.read(Kind::Output, &[1, 2]).err(), Some(ReadingError::UnknownReport));
//! // A byte too many, as some devices send it.
//! assert_eq!(reader.read(Kind::Input, &[1, 2, 0])?.rest(), [0]);
//! # Ok::<(), Box<dyn std::error::Error>>(())
//! ```
//!
//! # What is proved
//!
//! The hidden module `parts` is the text of crates that are proved in Rattle (Rust with contracts), as are the fields and
//! their usages of `wuzhikar-reader`:
//!
//! - the fields of [`Details`], its collections and its calls; the bits, extents and units of a [`Detail`]
//! - the value in its unit
//! - the values of a report, and a report of settings, which [`Reader`] gets from calls of `parts`
//!
//! **All else, [`Reader`] and names included, is written by hand: tested, not proved.** Tests compare it with a program in
//! another language over some ten thousand descriptors. Any bytes may come: nothing panics on them. A call that says nothing
//! of memory takes memory as std does.
#![cfg_attr(not(test), no_std)]
#![forbid(unsafe_code)]
#![warn(missing_docs, missing_debug_implementations)]

extern crate alloc;

mod details;
mod names;
#[doc(hidden)]
pub mod parts;
#[doc(hidden)]
pub mod rattle;
pub mod texts;
pub mod usages;
mod values;
mod views;

pub use crate::details::{
    Applications, Around, Collection, Detail, Details, Dimension, NoUnit, Placed, PlacedFields, ReportFacts, Reports,
    ReportsOf, details,
};
pub use crate::names::{UsageName, page_name, usages_named};
pub use crate::values::{
    Asked, Changed, NoPhysical, NoValue, Physical, RawError, Reader, ReaderError, Reading, ReadingError, Setting, Target,
    Value, Within, WriteError,
};
pub use crate::views::{Axis, Contact, Hat, Keys, Pad, Pen, Pointer, Touch};
pub use wuzhikar_reader::{AllocError, Descriptor, Field, FieldUsages, Kind, Lenient, ParseError, ParseFault};
