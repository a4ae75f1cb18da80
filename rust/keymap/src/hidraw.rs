// SPDX-License-Identifier: MIT OR Apache-2.0
//! The keyboard as Linux gives it to a program: a file of hidraw (Linux, Documentation/hid/hidraw.rst).

use crate::keyboard::{Features, REPORT};
use crate::which::{Files, Told};
use std::ffi::{c_int, c_ulong, c_void};
use std::fs::{File, OpenOptions};
use std::io;
use std::os::fd::AsRawFd;
use std::path::{Path, PathBuf};
use std::time::Duration;

/// An open file of hidraw.
pub struct Hidraw(File);

/// `struct hidraw_devinfo`.
#[repr(C)]
#[derive(Default)]
struct Info {
    bus: u32,
    vendor: i16,
    product: i16,
}

/// `struct hidraw_report_descriptor`.
#[repr(C)]
struct Descriptor {
    length: u32,
    bytes: [u8; 4096],
}

/// The numbers of these calls, as Linux's macro _IOC makes them of direction, type, number and length.
const fn call(direction: c_ulong, number: c_ulong, length: usize) -> c_ulong {
    direction << 30 | (length as c_ulong) << 16 | (b'H' as c_ulong) << 8 | number
}

const HIDIOCGRDESCSIZE: c_ulong = call(2, 0x01, size_of::<c_int>());
const HIDIOCGRDESC: c_ulong = call(2, 0x02, size_of::<Descriptor>());
const HIDIOCGRAWINFO: c_ulong = call(2, 0x03, size_of::<Info>());
const HIDIOCSFEATURE: c_ulong = call(3, 0x06, REPORT);
const HIDIOCGFEATURE: c_ulong = call(3, 0x07, REPORT);

#[allow(unsafe_code)]
mod system {
    use super::*;

    unsafe extern "C" {
        fn ioctl(file: c_int, call: c_ulong, ...) -> c_int;
    }

    /// Makes a call that reads or writes a value of this type, whose size its number has.
    pub fn make<T>(file: &File, call: c_ulong, value: &mut T) -> io::Result<usize> {
        assert_eq!((call >> 16 & 0x3fff) as usize, size_of::<T>());
        // SAFETY: the file is open, and the call touches as many bytes behind the pointer as its number says, which is the
        // size of the value. Any bytes are a value: T is an array of bytes, a number, or a structure of these.
        let answer = unsafe { ioctl(file.as_raw_fd(), call, std::ptr::from_mut(value).cast::<c_void>()) };
        usize::try_from(answer).map_err(|_| io::Error::last_os_error())
    }
}

impl Features for Hidraw {
    fn set(&mut self, mut report: [u8; REPORT]) -> io::Result<()> {
        system::make(&self.0, HIDIOCSFEATURE, &mut report).map(drop)
    }

    fn get(&mut self, id: u8) -> io::Result<[u8; REPORT]> {
        let mut report = [0; REPORT];
        report[0] = id;
        match system::make(&self.0, HIDIOCGFEATURE, &mut report)? {
            REPORT => Ok(report),
            length => Err(io::Error::other(format!("a report of {length} bytes came, and not of {REPORT}"))),
        }
    }

    fn pause(&mut self, time: Duration) {
        std::thread::sleep(time);
    }
}

impl Hidraw {
    /// Reads the report descriptor. (hidraw gives at most 4,095 bytes.)
    fn descriptor(&self) -> io::Result<Vec<u8>> {
        let mut length: c_int = 0;
        system::make(&self.0, HIDIOCGRDESCSIZE, &mut length)?;
        let mut descriptor = Descriptor { length: length.unsigned_abs(), bytes: [0; 4096] };
        system::make(&self.0, HIDIOCGRDESC, &mut descriptor)?;
        Ok(descriptor.bytes.into_iter().take(descriptor.length as usize).collect())
    }
}

/// The files of hidraw in /dev.
pub struct System;

impl Files for System {
    type File = Hidraw;

    fn paths(&self) -> Vec<PathBuf> {
        let names = std::fs::read_dir("/dev").into_iter().flatten().flatten().map(|entry| entry.path());
        let mut files: Vec<_> = names.filter(|path| path.to_string_lossy().starts_with("/dev/hidraw")).collect();
        files.sort();
        files
    }

    fn open(&self, path: &Path) -> io::Result<Hidraw> {
        OpenOptions::new().read(true).write(true).open(path).map(Hidraw)
    }

    fn told(&self, file: &Hidraw) -> Option<Told> {
        let mut info = Info::default();
        system::make(&file.0, HIDIOCGRAWINFO, &mut info).ok()?;
        let descriptor = file.descriptor().unwrap_or_default();
        Some(Told { id: (info.vendor as u16, info.product as u16), descriptor })
    }
}

#[cfg(test)]
mod tests {
    use super::*;
    use crate::which::{self, Which};

    /// What is said of a file that is named as the keyboard.
    fn said(path: &str) -> String {
        which::open(&System, &Which { device: Some(path.into()), id: None })
            .err()
            .map(|error| error.to_string())
            .unwrap_or_default()
    }

    #[test]
    fn a_file_that_is_no_device() {
        assert_eq!(said("/dev/null"), "/dev/null: this is no file of hidraw, as /dev/hidraw0 is");
        assert_eq!(said("/nowhere"), "/nowhere: No such file or directory (os error 2)");
    }
}
