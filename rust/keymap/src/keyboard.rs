// SPDX-License-Identifier: MIT OR Apache-2.0
//! The keymap of a keyboard, by its feature report (docs/formats.md, "The feature report that carries a command").

use crate::file::{FileError, KEYS, Keymap, LAYERS};
use std::path::PathBuf;
use std::time::Duration;
use std::{fmt, io};
use wuzhikar::{Code, KeyNo, LayerNo};

/// The Report ID and the bytes of the feature report, its ID counted.
pub const ID: u8 = 3;
pub const REPORT: usize = 6;

/// Linux's numbers of errors that say something here.
const EPROTO: i32 = 71;
const EPIPE: i32 = 32;
const ENODEV: i32 = 19;
const ETIMEDOUT: i32 = 110;

/// What takes and gives feature reports.
pub trait Features {
    /// Sends a report. It ends well once the keyboard has confirmed it, so a command is stored then.
    fn set(&mut self, report: [u8; REPORT]) -> io::Result<()>;
    /// Asks for the report of an ID.
    fn get(&mut self, id: u8) -> io::Result<[u8; REPORT]>;
    /// Lets so much time pass.
    fn pause(&mut self, time: Duration);
}

/// Why something was not done.
#[derive(Debug)]
pub enum Error {
    /// A file of hidraw can't be opened.
    Open(PathBuf, io::Error),
    /// A file is none of hidraw.
    Device(PathBuf),
    /// The device of a file has another ID than the one that is meant.
    OtherId(PathBuf, (u16, u16), (u16, u16)),
    /// The device of a file has no feature report that carries a command.
    NoKeyboard(PathBuf),
    /// No keyboard of this ID is there; a file that could not be opened.
    None((u16, u16), Option<(PathBuf, io::Error)>),
    /// Several keyboards are there.
    Several(Vec<PathBuf>),
    /// The keyboard refused, or did not answer.
    Call(io::Error),
    /// The keyboard says something that is no code.
    Answer([u8; REPORT]),
    /// The file can't be read, or is no keymap.
    Read(PathBuf, io::Error),
    File(PathBuf, FileError),
    /// A load ended early, after so many of so many entries.
    Load(usize, usize, Box<Error>),
}

impl fmt::Display for Error {
    fn fmt(&self, f: &mut fmt::Formatter<'_>) -> fmt::Result {
        const RULE: &str = "rust/keymap/README.md has the udev rule that lets a user open it";
        match self {
            Error::Open(path, error) if error.kind() == io::ErrorKind::PermissionDenied => {
                write!(f, "{}: {error}; {RULE}", path.display())
            }
            Error::Open(path, error) => write!(f, "{}: {error}", path.display()),
            Error::Device(path) => write!(f, "{}: this is no file of hidraw, as /dev/hidraw0 is", path.display()),
            Error::OtherId(path, (vendor, product), (v, p)) => {
                write!(f, "{}: its ID is {vendor:04x}:{product:04x}, and not {v:04x}:{p:04x}", path.display())
            }
            Error::NoKeyboard(path) => {
                write!(f, "{}: no feature report {ID} of 5 bytes on page FF00h, so it is no such keyboard", path.display())
            }
            Error::None((vendor, product), refused) => {
                write!(f, "no keyboard with the ID {vendor:04x}:{product:04x} is there")?;
                match refused {
                    Some((path, error)) => write!(f, ", as far as can be seen: {}: {error}; {RULE}", path.display()),
                    None => Ok(()),
                }
            }
            Error::Several(paths) => {
                let names: Vec<_> = paths.iter().map(|path| path.display().to_string()).collect();
                write!(f, "several keyboards are there, name one by --device: {}", names.join(" "))
            }
            Error::Call(error) => write!(f, "{error}: {}", meaning(error)),
            Error::Answer(report) => write!(f, "the keyboard answered {report:02x?}, which is no entry"),
            Error::Read(path, error) => write!(f, "{}: {error}", path.display()),
            Error::File(path, error) => write!(f, "{}: {error}", path.display()),
            Error::Load(done, all, error) => {
                write!(f, "{error}\n{done} of {all} entries were set; the same load again sets the rest")
            }
        }
    }
}

impl std::error::Error for Error {}

/// What an error of a call may mean.
fn meaning(error: &io::Error) -> &'static str {
    match error.raw_os_error() {
        Some(EPIPE) => {
            "the keyboard refused it for five seconds (a stall has no reason on a real bus): its keymap is locked, a page of its \
             flash is not sound, or used up, or the flash answered a fault. The entry is as it was"
        }
        Some(EPROTO | ENODEV) => "the keyboard went away, as when its power is cut: the entry is the old one or the new one",
        Some(ETIMEDOUT) => "the keyboard did not confirm it in time: the entry is the old one or the new one",
        _ => "the system could not do it",
    }
}

/// An entry of the keymap.
#[derive(Clone, Copy, Debug, PartialEq, Eq)]
pub struct Entry {
    pub layer: LayerNo,
    pub key: KeyNo,
}

impl Entry {
    /// Makes an entry of its numbers.
    pub fn from_numbers(layer: u8, key: u8) -> Option<Entry> {
        Some(Entry { layer: LayerNo::read(layer).ok()?, key: KeyNo::read(key).ok()? })
    }

    /// All entries, by rising layer and key.
    pub fn all() -> impl Iterator<Item = Entry> {
        (0..LAYERS as u8).flat_map(|layer| (0..KEYS as u8).filter_map(move |key| Entry::from_numbers(layer, key)))
    }
}

/// A report with an operation: 0 selects an entry, 1 sets it, 2 resets its layer, 3 resets all. What is not used is 0.
fn report(operation: u8, layer: u8, key: u8, code: u16) -> [u8; REPORT] {
    let [low, high] = code.to_le_bytes();
    [ID, operation, layer, key, low, high]
}

/// The first pause after a stall, the longest one, and how long is tried at most: a keyboard takes a command 4,000 scans of a
/// millisecond after the one before, at the latest.
const FIRST_PAUSE: Duration = Duration::from_millis(50);
const LONGEST_PAUSE: Duration = Duration::from_millis(500);
const PATIENCE: Duration = Duration::from_secs(5);

/// Sends a report. A stall may only mean "later" (SECURITY.md, pace), so a stalled report is sent again.
fn send(features: &mut impl Features, report: [u8; REPORT]) -> Result<(), Error> {
    let (mut pause, mut waited) = (FIRST_PAUSE, Duration::ZERO);
    loop {
        match features.set(report) {
            Err(error) if error.raw_os_error() == Some(EPIPE) && waited < PATIENCE => features.pause(pause),
            ended => return ended.map_err(Error::Call),
        }
        waited += pause;
        pause = LONGEST_PAUSE.min(2 * pause);
    }
}

/// The code of an entry.
pub fn get(features: &mut impl Features, entry: Entry) -> Result<Code, Error> {
    let (layer, key) = (entry.layer.number(), entry.key.number());
    send(features, report(0, layer, key, 0))?;
    let answer = features.get(ID).map_err(Error::Call)?;
    let code = u16::from_le_bytes([answer[4], answer[5]]);
    match Code::read(code) {
        Ok(code) if answer[..4] == [ID, 0, layer, key] => Ok(code),
        _ => Err(Error::Answer(answer)),
    }
}

/// Sets an entry.
pub fn set(features: &mut impl Features, entry: Entry, code: Code) -> Result<(), Error> {
    send(features, report(1, entry.layer.number(), entry.key.number(), code.bits()))
}

/// Sets a layer, or all of them, back to the default.
pub fn reset(features: &mut impl Features, layer: Option<LayerNo>) -> Result<(), Error> {
    let report = layer.map_or(report(3, 0, 0, 0), |layer| report(2, layer.number(), 0, 0));
    send(features, report)
}

/// The whole keymap.
pub fn dump(features: &mut impl Features) -> Result<Keymap, Error> {
    Entry::all().map(|entry| get(features, entry)).collect::<Result<Vec<_>, _>>().map(Keymap::from_codes)
}

/// Makes the keymap this one, and answers how many entries differed. The first that is not set ends it.
pub fn load(features: &mut impl Features, keymap: &Keymap) -> Result<usize, Error> {
    let there = dump(features)?;
    let differing: Vec<_> = Entry::all().filter(|entry| there.get(*entry) != keymap.get(*entry)).collect();
    for (done, entry) in differing.iter().enumerate() {
        set(features, *entry, keymap.get(*entry)).map_err(|error| Error::Load(done, differing.len(), Box::new(error)))?;
    }
    Ok(differing.len())
}
