//! Values as numbers, truth values and text. Written by hand: tested, not proved.

use crate::parts::settings::{SettingsError, Value};

macro_rules! numbers {
    ($($type:ty, $name:ident);*) => {
        impl Value {
            $(/// Returns the value as a number, the lowest byte first; `None` if it has another count of bytes.
            pub fn $name(&self) -> Option<$type> {
                Some(<$type>::from_le_bytes(self.as_bytes().try_into().ok()?))
            })*
        }

        $(/// Makes the value of a number, the lowest byte first.
        impl From<$type> for Value {
            fn from(number: $type) -> Value {
                short(&number.to_le_bytes())
            }
        })*
    };
}

numbers!(u8, as_u8; u16, as_u16; u32, as_u32; u64, as_u64);

/// A value of at most eight bytes.
fn short(bytes: &[u8]) -> Value {
    Value::new(bytes).unwrap_or_else(|| unreachable!())
}

/// Makes the value of a truth value: one byte, 0 or 1.
impl From<bool> for Value {
    fn from(truth: bool) -> Value {
        short(&[truth.into()])
    }
}

/// Makes the value of a text of at most 64 bytes of UTF-8; a longer one is [`SettingsError::TooLong`].
///
/// ```
/// use wuzhikar_log::{SettingsError, Value};
///
/// assert_eq!(Value::try_from("my network")?.as_str(), Some("my network"));
/// assert_eq!(Value::try_from("x".repeat(65).as_str()), Err(SettingsError::TooLong));
/// # Ok::<(), SettingsError>(())
/// ```
impl TryFrom<&str> for Value {
    type Error = SettingsError;

    fn try_from(text: &str) -> Result<Value, SettingsError> {
        Value::try_from(text.as_bytes())
    }
}

/// Makes the value of at most 64 bytes; more are [`SettingsError::TooLong`].
impl TryFrom<&[u8]> for Value {
    type Error = SettingsError;

    fn try_from(bytes: &[u8]) -> Result<Value, SettingsError> {
        Value::new(bytes).ok_or(SettingsError::TooLong)
    }
}

/// ```
/// use wuzhikar_log::Value;
///
/// assert_eq!(Value::from(1_500u16).as_u16(), Some(1_500));
/// assert_eq!(Value::from(true).as_bool(), Some(true));
/// // Two bytes are no number of four, and 7 is no truth value.
/// assert_eq!(Value::from(1_500u16).as_u32(), None);
/// assert_eq!(Value::from(7u8).as_bool(), None);
/// ```
impl Value {
    /// Returns the bytes as text; `None` if they are not UTF-8.
    pub fn as_str(&self) -> Option<&str> {
        core::str::from_utf8(self.as_bytes()).ok()
    }

    /// Returns the truth value of one byte, 0 or 1; `None` for all else.
    pub fn as_bool(&self) -> Option<bool> {
        match self.as_bytes() {
            [0] => Some(false),
            [1] => Some(true),
            _ => None,
        }
    }
}

impl AsRef<[u8]> for Value {
    fn as_ref(&self) -> &[u8] {
        self.as_bytes()
    }
}

impl Clone for Value {
    fn clone(&self) -> Value {
        self.copied()
    }
}

impl PartialEq for Value {
    fn eq(&self, other: &Value) -> bool {
        self.as_bytes() == other.as_bytes()
    }
}

impl Eq for Value {}
