//! Reports from values: the exported `write`, by a kept reader. Written by hand.

use super::reader::Reader;
use crate::parts::report_write::{self, Control};

pub use crate::parts::field_values::Asked;
pub use crate::parts::report_write::{Setting, Target, WriteError};

use alloc::vec::Vec;
use wuzhikar_reader::{AllocError, Kind};

impl Reader {
    /// Returns the field, by its place in `Descriptor::fields`, that a setting of this report would change; `None` if the report
    /// does not have the control.
    ///
    /// # Errors
    ///
    /// `AllocError` if there was no memory for the fields of the report.
    pub fn field_of(&self, kind: Kind, id: u8, target: Target) -> Result<Option<usize>, AllocError> {
        let kept = report_write::kept_fields((), self.descriptor(), self.null_states(), kind, id)?;
        Ok(report_write::control_of(self.descriptor(), &kept, target).map(|control| match control {
            Control::Place(kept, _) | Control::Usage(kept, _) => kept.number,
        }))
    }

    /// Writes a report of this kind and ID (0 without Report IDs) with these controls set. Each other bit is that of `onto`.
    /// In a new report elements with Null State have a null value if there is one, elements of Arrays name no usage, and
    /// the rest is 0.
    ///
    /// # Errors
    ///
    /// `WriteError` states the order of its reasons. `Memory` comes only if the report exists, and `onto` can be written
    /// onto.
    ///
    /// ```
    /// use wuzhikar_hid::{Asked, Kind, Reader, Setting, Target, WriteError, usages::led};
    ///
    /// // Three LEDs of a keyboard, and five bits of padding.
    /// let text = [0x05, 0x08, 0x19, 1, 0x29, 3, 0x25, 1, 0x75, 1, 0x95, 3, 0x91, 0x02, 0x95, 5, 0x91, 0x03];
    /// let reader = Reader::new(&text)?;
    /// let of = |usage| Target::Usage { usage, place: 0 };
    /// let lit = |usage| Setting { target: of(usage), asked: Asked::Value(1) };
    /// let report = reader.write(Kind::Output, 0, &[lit(led::NUM_LOCK)], None)?;
    /// assert_eq!(report, [0b001]);
    /// // Written onto the last report, the other LEDs stay.
    /// assert_eq!(reader.write(Kind::Output, 0, &[lit(led::CAPS_LOCK)], Some(&report))?, [0b011]);
    /// assert_eq!(reader.write(Kind::Output, 0, &[lit(led::KANA)], None), Err(WriteError::Unknown(0)));
    /// assert_eq!(reader.field_of(Kind::Output, 0, of(led::CAPS_LOCK))?, Some(0));
    /// # Ok::<(), Box<dyn std::error::Error>>(())
    /// ```
    pub fn write(&self, kind: Kind, id: u8, settings: &[Setting], onto: Option<&[u8]>) -> Result<Vec<u8>, WriteError> {
        report_write::write((), self.descriptor(), self.null_states(), kind, id, settings, onto)
    }
}
