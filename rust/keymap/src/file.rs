// SPDX-License-Identifier: MIT OR Apache-2.0
//! A keymap as a file: JSON, version 1 (docs/formats.md, "A keymap as a file").

use crate::keyboard::Entry;
use serde::de::{Error, MapAccess, Visitor};
use serde::{Deserialize, Deserializer};
use std::fmt;
use wuzhikar::Code;

pub const LAYERS: usize = 4;
pub const KEYS: usize = 96;

const FORMAT: &str = "wuzhikar-keymap";
const VERSION: f64 = 1.0;
/// The most bytes of a file.
pub const MOST: usize = 65_536;

/// Why a file is no keymap.
#[derive(Debug)]
pub enum FileError {
    /// It has more than 65,536 bytes.
    TooLong,
    /// It is no JSON text in UTF-8, or its members are others. Line and column are named.
    Json(serde_json::Error),
    /// It has another format, or version.
    Format(String),
    Version(f64),
    /// So many layers, or codes in a layer.
    Layers(usize),
    Codes(usize, usize),
    /// A string of a layer and key is no code.
    Code(usize, usize, String),
}

impl fmt::Display for FileError {
    fn fmt(&self, f: &mut fmt::Formatter<'_>) -> fmt::Result {
        match self {
            FileError::TooLong => write!(f, "more than {MOST} bytes"),
            FileError::Json(error) => write!(f, "{error}"),
            FileError::Format(format) => write!(f, "the format is {format:?}, and not {FORMAT:?}"),
            FileError::Version(version) => {
                write!(f, "the version is {version}, and this program reads version {VERSION}")
            }
            FileError::Layers(count) => write!(f, "{count} layers, and not {LAYERS}"),
            FileError::Codes(layer, count) => write!(f, "{count} codes in layer {layer}, and not {KEYS}"),
            FileError::Code(layer, key, text) => write!(f, "{text:?} of layer {layer}, key {key} is no code"),
        }
    }
}

/// A whole keymap.
#[derive(Clone, Debug, PartialEq, Eq)]
pub struct Keymap {
    codes: Vec<Code>,
}

/// What is passed over in front of a file: U+FEFF, by which some programs mark a text as UTF-8.
const MARK: &[u8] = "\u{feff}".as_bytes();

/// The members of a file.
struct Members {
    format: String,
    version: f64,
    layers: Vec<Vec<String>>,
}

impl<'d> Deserialize<'d> for Members {
    fn deserialize<D: Deserializer<'d>>(from: D) -> Result<Members, D::Error> {
        from.deserialize_map(Object)
    }
}

/// Reads members by their names.
struct Object;

impl<'d> Visitor<'d> for Object {
    type Value = Members;

    fn expecting(&self, f: &mut fmt::Formatter<'_>) -> fmt::Result {
        f.write_str("an object")
    }

    fn visit_map<A: MapAccess<'d>>(self, mut map: A) -> Result<Members, A::Error> {
        let (mut format, mut version, mut layers, mut name) = (None, None, None, None::<String>);
        while let Some(member) = map.next_key::<String>()? {
            match &member[..] {
                "format" => once(&mut map, &mut format, "format")?,
                "version" => once(&mut map, &mut version, "version")?,
                "layers" => once(&mut map, &mut layers, "layers")?,
                "name" => once(&mut map, &mut name, "name")?,
                _ => return Err(A::Error::unknown_field(&member, &["format", "version", "layers", "name"])),
            }
        }
        Ok(Members {
            format: format.ok_or_else(|| A::Error::missing_field("format"))?,
            version: version.ok_or_else(|| A::Error::missing_field("version"))?,
            layers: layers.ok_or_else(|| A::Error::missing_field("layers"))?,
        })
    }
}

/// Reads the value of a member, which comes once.
fn once<'d, T: Deserialize<'d>, A: MapAccess<'d>>(
    map: &mut A,
    value: &mut Option<T>,
    member: &'static str,
) -> Result<(), A::Error> {
    match value.replace(map.next_value()?) {
        None => Ok(()),
        Some(_) => Err(A::Error::duplicate_field(member)),
    }
}

impl Keymap {
    /// Makes a keymap of all codes, by rising layer and key.
    pub fn from_codes(codes: Vec<Code>) -> Keymap {
        assert_eq!(codes.len(), LAYERS * KEYS);
        Keymap { codes }
    }

    /// The code of an entry.
    pub fn get(&self, entry: Entry) -> Code {
        self.codes[KEYS * usize::from(entry.layer.number()) + usize::from(entry.key.number())]
    }

    /// Reads a file.
    pub fn read(bytes: &[u8]) -> Result<Keymap, FileError> {
        if bytes.len() > MOST {
            return Err(FileError::TooLong);
        }
        let text = bytes.strip_prefix(MARK).unwrap_or(bytes);
        let Members { format, version, layers } = serde_json::from_slice(text).map_err(FileError::Json)?;
        if format != FORMAT {
            return Err(FileError::Format(format));
        }
        if version != VERSION {
            return Err(FileError::Version(version));
        }
        if layers.len() != LAYERS {
            return Err(FileError::Layers(layers.len()));
        }
        let mut codes = Vec::new();
        for (layer, keys) in layers.iter().enumerate() {
            if keys.len() != KEYS {
                return Err(FileError::Codes(layer, keys.len()));
            }
            for (key, text) in keys.iter().enumerate() {
                codes.push(code(text).ok_or_else(|| FileError::Code(layer, key, text.clone()))?);
            }
        }
        Ok(Keymap::from_codes(codes))
    }

    /// Returns the text of the file, with a name for people if there is one.
    pub fn write(&self, name: Option<&str>) -> String {
        let layers: Vec<_> = self.codes.chunks(KEYS).map(layer_text).collect();
        let name = name.map_or(String::new(), |name| format!("  \"name\": {},\n", serde_json::Value::from(name)));
        let layers = layers.join(",\n");
        format!("{{\n  \"format\": \"{FORMAT}\",\n  \"version\": {VERSION},\n{name}  \"layers\": [\n{layers}\n  ]\n}}\n")
    }
}

/// A code of four hex digits.
pub fn code(text: &str) -> Option<Code> {
    let digits = text.len() == 4 && text.bytes().all(|digit| digit.is_ascii_hexdigit());
    digits.then(|| u16::from_str_radix(text, 16).ok()).flatten().and_then(|bits| Code::read(bits).ok())
}

/// A layer, 16 codes in a line.
fn layer_text(codes: &[Code]) -> String {
    let strings: Vec<_> = codes.iter().map(|code| format!("\"{:04x}\"", code.bits())).collect();
    let lines: Vec<_> = strings.chunks(16).map(|line| format!("      {}", line.join(", "))).collect();
    format!("    [\n{}\n    ]", lines.join(",\n"))
}

#[cfg(test)]
mod tests;
