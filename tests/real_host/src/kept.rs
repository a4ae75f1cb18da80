// SPDX-License-Identifier: MIT OR Apache-2.0
//! The file that the flash is kept in.

use std::ffi::OsString;
use std::fs::{FileType, OpenOptions};
use std::io::{Error, ErrorKind, Result, Write};
use std::path::{Path, PathBuf};

/// The bytes of a page, and how many pages a flash has.
const PAGE: u64 = 4_096;
const PAGES: std::ops::RangeInclusive<u64> = 2..=8;

pub struct Kept {
    pub path: PathBuf,
    /// What it holds.
    image: Vec<u8>,
}

/// The kind of what has this name, which may be a link; nothing where it is free.
pub fn kind_of(path: &Path) -> Result<Option<FileType>> {
    match std::fs::symlink_metadata(path) {
        Ok(there) => Ok(Some(there.file_type())),
        Err(error) if error.kind() == ErrorKind::NotFound => Ok(None),
        Err(error) => Err(error),
    }
}

impl Kept {
    /// A flash is kept in a new file, or in one that holds a flash, or nothing.
    pub fn new(path: PathBuf) -> Result<Kept> {
        if let Some(kind) = kind_of(&path)? {
            if !kind.is_file() {
                return Err(Error::other("it is there, and is no regular file"));
            }
            let length = std::fs::metadata(&path)?.len();
            if length != 0 && (length % PAGE != 0 || !PAGES.contains(&(length / PAGE))) {
                return Err(Error::other("it is there, and holds no flash"));
            }
        }
        Ok(Kept { path, image: Vec::new() })
    }

    /// Writes the flash where it is another one: to a new file beside it, which then takes its name.
    pub fn keep(&mut self, image: &[u8]) -> Result<()> {
        if self.image == image {
            return Ok(());
        }
        let mut part = OsString::from(&self.path);
        part.push(".part");
        let mut file = OpenOptions::new()
            .write(true)
            .create_new(true)
            .open(&part)
            .map_err(|error| Error::new(error.kind(), format!("{}: {error}", Path::new(&part).display())))?;
        let kept = file.write_all(image).and_then(|()| std::fs::rename(&part, &self.path));
        if kept.is_err() {
            let _ = std::fs::remove_file(&part);
        }
        self.image = image.to_vec();
        kept
    }
}
