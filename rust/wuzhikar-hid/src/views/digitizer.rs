//! Touch screens, touchpads and pens: values that stand in one collection belong together.

use super::{Axis, is_on};
use crate::usages::{digitizers, generic_desktop};
use crate::{Detail, Kind, Reader, ReadingError, Value, Within};
use alloc::vec::Vec;

/// What touches a screen.
#[derive(Clone, Debug, Default)]
pub struct Touch<'r> {
    /// The contacts of this report, at most so many as Contact Count says, where it says more than 0.
    pub contacts: Vec<Contact<'r>>,
    /// Contact Count, where the report has it. A frame may come in several reports: the first one counts all of it, and the
    /// others have 0.
    pub count: Option<u64>,
}

/// A finger.
#[derive(Clone, Copy, Debug, Default)]
pub struct Contact<'r> {
    /// Contact Identifier: the same from report to report.
    pub id: Option<i64>,
    /// Whether it touches (Tip Switch).
    pub touches: bool,
    /// Touch Valid, which some name Confidence; `None` where it is not told.
    pub is_valid: Option<bool>,
    /// X.
    pub x: Option<Axis<'r>>,
    /// Y.
    pub y: Option<Axis<'r>>,
    /// Tip Pressure.
    pub pressure: Option<Axis<'r>>,
}

/// A pen.
#[derive(Clone, Copy, Debug, Default)]
pub struct Pen<'r> {
    /// In Range: where it isn't, the rest says nothing.
    pub in_range: bool,
    /// Whether the tip touches.
    pub touches: bool,
    /// Whether the eraser touches.
    pub erases: bool,
    /// Whether it is held with the eraser to the screen.
    pub is_inverted: bool,
    /// Barrel Switch, and the second one.
    pub buttons: [bool; 2],
    /// X.
    pub x: Option<Axis<'r>>,
    /// Y.
    pub y: Option<Axis<'r>>,
    /// Tip Pressure.
    pub pressure: Option<Axis<'r>>,
    /// X Tilt and Y Tilt.
    pub tilt: [Option<Axis<'r>>; 2],
}

/// The values that stand in one collection, in their order.
struct Group<'r> {
    collection: usize,
    values: Vec<(Value, &'r Detail)>,
}

impl<'r> Group<'r> {
    /// The first value of a usage.
    fn first(&self, usage: u32) -> Option<&(Value, &'r Detail)> {
        self.values.iter().find(|(value, _)| value.usage == Some(usage))
    }

    /// Where an axis is; its first value counts, since some contacts have a second one for their middle.
    fn axis(&self, usage: u32) -> Option<Axis<'r>> {
        let (value, detail) = self.first(usage)?;
        (value.within == Within::Range).then_some(Axis { raw: value.raw, detail })
    }

    /// Whether a control is on, where the collection has it.
    fn told(&self, usage: u32) -> Option<bool> {
        self.first(usage).map(|(value, detail)| is_on(value, detail))
    }

    fn is_on(&self, usage: u32) -> bool {
        self.told(usage) == Some(true)
    }

    fn contact(&self) -> Contact<'r> {
        Contact {
            id: self.first(digitizers::CONTACT_IDENTIFIER).map(|(value, _)| value.raw),
            touches: self.is_on(digitizers::TIP_SWITCH),
            is_valid: self.told(digitizers::TOUCH_VALID),
            x: self.axis(generic_desktop::X),
            y: self.axis(generic_desktop::Y),
            pressure: self.axis(digitizers::TIP_PRESSURE),
        }
    }

    fn pen(&self) -> Pen<'r> {
        Pen {
            in_range: self.is_on(digitizers::IN_RANGE),
            touches: self.is_on(digitizers::TIP_SWITCH),
            erases: self.is_on(digitizers::ERASER),
            is_inverted: self.is_on(digitizers::INVERT),
            buttons: [digitizers::BARREL_SWITCH, digitizers::SECONDARY_BARREL_SWITCH].map(|usage| self.is_on(usage)),
            x: self.axis(generic_desktop::X),
            y: self.axis(generic_desktop::Y),
            pressure: self.axis(digitizers::TIP_PRESSURE),
            tilt: [digitizers::X_TILT, digitizers::Y_TILT].map(|usage| self.axis(usage)),
        }
    }
}

impl Reader {
    /// The values of an input report that stand in a collection with one of these usages, by the innermost such collection.
    fn grouped<'r>(&'r self, report: &[u8], usages: &[u32]) -> Result<Vec<Group<'r>>, ReadingError> {
        let (details, mut groups) = (self.details(), Vec::<Group<'r>>::new());
        for value in self.read(Kind::Input, report)? {
            let Some(placed) = self.placed(value.field) else { continue };
            let is_of = |place: &usize| details.collections[*place].usage.is_some_and(|usage| usages.contains(&usage));
            let Some(collection) = details.around(placed.place).find(is_of) else { continue };
            match groups.iter_mut().find(|group| group.collection == collection) {
                Some(group) => group.values.push((value, placed.detail)),
                None => groups.push(Group { collection, values: [(value, placed.detail)].into() }),
            }
        }
        Ok(groups)
    }

    /// Returns the contacts of a touch screen or a touchpad by an input report: one for each Finger collection, in their order.
    ///
    /// # Errors
    ///
    /// As [`read`](Self::read).
    ///
    /// ```
    /// use wuzhikar_hid::Reader;
    ///
    /// // Two fingers, whose X goes to 127 in 12.7 cm.
    /// # let finger = [
    /// #     0x05, 0x0d, 0x09, 0x22, 0xa1, 0x02, 0x09, 0x42, 0x25, 0x01, 0x75, 0x01, 0x95, 0x01, 0x81, 0x02, 0x95, 0x07, 0x81, 0x03,
    /// #     0x09, 0x51, 0x25, 0x7f, 0x75, 0x08, 0x95, 0x01, 0x81, 0x02, 0x05, 0x01, 0x09, 0x01, 0xa1, 0x00, 0x09, 0x30, 0x46, 0x7f,
    /// #     0x00, 0x65, 0x11, 0x55, 0x0f, 0x81, 0x02, 0x45, 0x00, 0x65, 0x00, 0x55, 0x00, 0xc0, 0xc0,
    /// # ];
    /// # let count = [0x05, 0x0d, 0x09, 0x54, 0x81, 0x02, 0xc0];
    /// # let text = [&[0x05, 0x0d, 0x09, 0x04, 0xa1, 0x01][..], &finger, &finger, &count].concat();
    /// let reader = Reader::new(&text)?;
    /// let touch = reader.touch(&[0x01, 7, 40, 0x00, 0, 0, 1])?;
    /// let [finger] = touch.contacts[..] else { panic!("one of the two slots is used") };
    /// assert_eq!((finger.id, finger.touches), (Some(7), true));
    /// assert!(finger.x.and_then(|x| x.millimetres()).is_some_and(|x| (x - 40.0).abs() < 1e-9));
    /// # Ok::<(), Box<dyn std::error::Error>>(())
    /// ```
    pub fn touch(&self, report: &[u8]) -> Result<Touch<'_>, ReadingError> {
        let of_count = |value: &Value| value.usage == Some(digitizers::CONTACT_COUNT);
        let count = self.read(Kind::Input, report)?.find(of_count).and_then(|value| u64::try_from(value.raw).ok());
        let groups = self.grouped(report, &[digitizers::FINGER])?;
        let most = count.filter(|count| *count > 0).and_then(|count| usize::try_from(count).ok()).unwrap_or(usize::MAX);
        Ok(Touch { contacts: groups.iter().map(Group::contact).take(most).collect(), count })
    }

    /// Returns the pens of an input report: one for each collection of a stylus, or of a pen that has none.
    ///
    /// # Errors
    ///
    /// As [`read`](Self::read).
    ///
    /// ```
    /// use wuzhikar_hid::Reader;
    ///
    /// # let text = [
    /// #     0x05, 0x0d, 0x09, 0x02, 0xa1, 0x01, 0x09, 0x20, 0xa1, 0x00, 0x09, 0x42, 0x09, 0x44, 0x09, 0x32, 0x25, 0x01, 0x75, 0x01,
    /// #     0x95, 0x03, 0x81, 0x02, 0x95, 0x05, 0x81, 0x03, 0x09, 0x30, 0x26, 0xff, 0x00, 0x75, 0x08, 0x95, 0x01, 0x81, 0x02, 0xc0,
    /// #     0xc0,
    /// # ];
    /// let reader = Reader::new(&text)?;
    /// let [pen] = reader.pens(&[0b101, 51])?[..] else { panic!("one pen") };
    /// assert_eq!((pen.in_range, pen.touches, pen.buttons), (true, true, [false, false]));
    /// assert_eq!(pen.pressure.and_then(|pressure| pressure.share()), Some(0.2));
    /// # Ok::<(), Box<dyn std::error::Error>>(())
    /// ```
    pub fn pens(&self, report: &[u8]) -> Result<Vec<Pen<'_>>, ReadingError> {
        Ok(self.grouped(report, &[digitizers::STYLUS, digitizers::PEN])?.iter().map(Group::pen).collect())
    }
}
