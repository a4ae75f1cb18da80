// Exported from crates/settings/src/change.rt by bin/export-rust. Edit that file instead.
//! A change of a setting.

/// The most bytes that a value has.
pub const MAX_BYTES: usize = 64;

/// The room for the bytes of a value, in words of three.
pub(crate) const ROOM: usize = 66;

/// The value of a setting: 0 to 64 bytes.
#[derive(Debug)]
pub struct Value {
    len: u8,
    bytes: [u8; ROOM],
}

/// What becomes of one setting.
#[derive(Debug)]
pub struct Change {
    /// Whose value it is.
    pub id: u16,
    /// The new value, or `None` where it has none any more.
    pub value: Option<Value>,
}

impl Value {
    /// A value of these bytes, unless there are more than 64.
    pub fn new(from: &[u8]) -> Option<Value> {
        if from.len() > MAX_BYTES {
            return None;
        }
        let mut bytes = [0; ROOM];
        bytes[..from.len()].copy_from_slice(from);
        Some(Value {
            len: from.len() as u8,
            bytes,
        })
    }

    /// The bytes.
    pub fn as_bytes(&self) -> &[u8] {
        &self.bytes[..self.len as usize]
    }

    /// How many bytes there are.
    pub(crate) fn len(&self) -> u8 {
        self.len
    }

    /// The same value again.
    pub fn copied(&self) -> Value {
        Value {
            len: self.len,
            bytes: self.bytes,
        }
    }

    /// The first bytes of some.
    pub(crate) fn of_bytes(len: u8, bytes: [u8; ROOM]) -> Value {
        Value { len, bytes }
    }
}

/// What the proofs ask of changes holds of each: an id of 16 bits, and bytes, of which there are at
/// most 64.
pub(crate) fn are_changes(changes: &[Change]) {
    for change in changes {
        is_change(change);
    }
}

/// A change is one.
fn is_change(change: &Change) {
    let _id = change.id;
    if let Some(value) = &change.value {
        let _len = value.len();
        are_bytes(value.as_bytes());
    }
}

/// Each is a byte.
fn are_bytes(bytes: &[u8]) {
    let _len = bytes.len();
}
