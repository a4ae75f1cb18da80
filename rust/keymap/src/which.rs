// SPDX-License-Identifier: MIT OR Apache-2.0
//! Which device is the keyboard that is meant.

use crate::keyboard::{Error, Features, ID, REPORT};
use std::io;
use std::path::{Path, PathBuf};
use wuzhikar_reader::{Kind, parse};

/// An ID for tests and not for products.
const TEST_ID: (u16, u16) = (0x1209, 0x0001);
/// The usage page of the feature report that carries a command (HUT: vendor defined).
const PAGE: u32 = 0xff00;

/// Which keyboard is meant: each that is named has to hold.
#[derive(Clone, Debug, Default, PartialEq, Eq)]
pub struct Which {
    pub device: Option<PathBuf>,
    /// Vendor and product.
    pub id: Option<(u16, u16)>,
}

/// What a file says of its device: vendor and product, and its report descriptor.
#[derive(Clone, Debug)]
pub struct Told {
    pub id: (u16, u16),
    pub descriptor: Vec<u8>,
}

/// The files of devices.
pub trait Files {
    type File: Features;
    fn paths(&self) -> Vec<PathBuf>;
    fn open(&self, path: &Path) -> io::Result<Self::File>;
    /// `None` where this is no file of hidraw.
    fn told(&self, file: &Self::File) -> Option<Told>;
}

/// Whether a device has the feature report that carries a command: by its ID of 5 bytes, all of them on page FF00h.
fn takes_commands(descriptor: &[u8]) -> bool {
    let Ok(descriptor) = parse(descriptor) else { return false };
    let mut usages = descriptor.report(Kind::Feature, ID).flat_map(|field| field.usages());
    descriptor.report_len(Kind::Feature, ID) == Some(REPORT)
        && usages.next().is_some_and(|first| first >> 16 == PAGE)
        && usages.all(|usage| usage >> 16 == PAGE)
}

/// Opens the keyboard that is meant.
pub fn open<F: Files>(files: &F, which: &Which) -> Result<F::File, Error> {
    match &which.device {
        Some(path) => open_named(files, path, which.id),
        None => open_found(files, which.id.unwrap_or(TEST_ID)),
    }
}

/// Opens the device of a file that was named.
fn open_named<F: Files>(files: &F, path: &Path, id: Option<(u16, u16)>) -> Result<F::File, Error> {
    let file = files.open(path).map_err(|error| Error::Open(path.into(), error))?;
    let told = files.told(&file).ok_or_else(|| Error::Device(path.into()))?;
    if let Some(id) = id.filter(|id| *id != told.id) {
        return Err(Error::OtherId(path.into(), told.id, id));
    }
    if !takes_commands(&told.descriptor) {
        return Err(Error::NoKeyboard(path.into()));
    }
    Ok(file)
}

/// Opens the one keyboard of this ID.
fn open_found<F: Files>(files: &F, id: (u16, u16)) -> Result<F::File, Error> {
    let (mut found, mut other, mut refused) = (Vec::new(), None, None);
    for path in files.paths() {
        match files.open(&path) {
            Ok(file) => match files.told(&file).filter(|told| told.id == id) {
                Some(told) if takes_commands(&told.descriptor) => found.push((path, file)),
                Some(_) => other = Some(path),
                None => {}
            },
            Err(error) => refused = Some((path, error)),
        }
    }
    if found.len() > 1 {
        return Err(Error::Several(found.into_iter().map(|(path, _)| path).collect()));
    }
    match (found.pop(), other) {
        (Some((_, file)), _) => Ok(file),
        (None, Some(path)) => Err(Error::NoKeyboard(path)),
        (None, None) => Err(Error::None(id, refused)),
    }
}

#[cfg(test)]
mod tests;
