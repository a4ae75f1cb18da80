// Exported from crates/field_values/src/fill.rt by bin/export-rust. Edit that file instead.
//! All places of a field.

use crate::parts::field_values::place::put_place;
use wuzhikar_reader::parts::descriptor_parse::Field;

/// Writes a value that the bits hold into each place of a field, in the bytes of a report after its ID. What is read there
/// is then the value, and each other bit is what it was. Bits past the end of the bytes are left out.
pub fn fill_places(field: &Field, bytes: &mut [u8], value: i64) {
    for place in 0..field.count {
        put_place(field, bytes, place, value);
    }
}
