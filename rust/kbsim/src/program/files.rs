//! What is read and written: files, and the descriptors 0 and 1 themselves. If one is open for the other direction, std's
//! handles see an end of the input, or bytes as written; here that is a fault.

use super::ends::Ended;
use kbsim::parts::text_io::{ReadError, read_text};
use std::env;
use std::ffi::OsString;
use std::fs::{self, File};
use std::io::{self, ErrorKind, Read, Write};
use std::path::Path;
use std::sync::atomic::{AtomicBool, Ordering};

/// Whether the pipe is closed that standard output leads to.
static IS_CLOSED: AtomicBool = AtomicBool::new(false);

/// Standard output, which keeps whether it is a closed pipe.
struct Output<W>(W);

impl<W: Write> Write for Output<W> {
    fn write(&mut self, bytes: &[u8]) -> io::Result<usize> {
        let written = self.0.write(bytes);
        if written.as_ref().is_err_and(|error| error.kind() == ErrorKind::BrokenPipe) {
            IS_CLOSED.store(true, Ordering::Relaxed);
        }
        written
    }

    fn flush(&mut self) -> io::Result<()> {
        self.0.flush()
    }
}

/// Whether standard output was found to be a closed pipe.
pub fn is_closed() -> bool {
    IS_CLOSED.load(Ordering::Relaxed)
}

#[cfg(unix)]
pub fn output() -> io::Result<impl Write> {
    use std::os::fd::AsFd;
    Ok(Output(File::from(io::stdout().as_fd().try_clone_to_owned()?)))
}

#[cfg(not(unix))]
pub fn output() -> io::Result<impl Write> {
    Ok(Output(io::stdout()))
}

#[cfg(unix)]
fn input() -> io::Result<File> {
    use std::os::fd::AsFd;
    Ok(File::from(io::stdin().as_fd().try_clone_to_owned()?))
}

#[cfg(not(unix))]
fn input() -> io::Result<io::Stdin> {
    Ok(io::stdin())
}

/// Whether standard input is meant: there is no path, or it is `-`.
pub fn is_input(path: Option<&OsString>) -> bool {
    path.is_none_or(|path| path == "-")
}

/// What a sentence about a path begins with: nothing where it is standard input.
pub fn named(path: Option<&OsString>) -> String {
    path.filter(|path| *path != "-").map_or_else(String::new, |path| format!("{}: ", Path::new(path).display()))
}

/// What a path names, open to be read, and whether it is a device that gives a report at each read.
pub fn opened(path: Option<&OsString>) -> Result<(Box<dyn Read>, bool), Ended> {
    match path.filter(|path| *path != "-") {
        None => {
            let input = input().map_err(|error| Ended::Closed(format!("standard input can't be read: {error}")))?;
            Ok((Box::new(input), false))
        }
        Some(path) => {
            let file = opened_file(path)?;
            let is_device = is_device(&file);
            Ok((Box::new(file), is_device))
        }
    }
}

fn opened_file(path: &OsString) -> Result<File, Ended> {
    File::open(path).map_err(|error| Ended::Closed(format!("{} can't be opened: {error}", Path::new(path).display())))
}

/// The device of hidraw that a path names, open to be read, whether each read gives a report, and its report descriptor. Sysfs has
/// it by the number of the device (Linux, Documentation/hid/hidraw.rst); the variable SYSFS_PATH may say where that is.
pub fn live(path: &OsString) -> Result<(File, bool, Vec<u8>), Ended> {
    let file = opened_file(path)?;
    let sysfs = env::var_os("SYSFS_PATH").unwrap_or_else(|| "/sys".into());
    let told = Path::new(&sysfs).join("dev/char").join(device_number(&file));
    let is_hidraw = fs::read_link(told.join("subsystem")).is_ok_and(|subsystem| subsystem.ends_with("hidraw"));
    if !is_hidraw {
        return Err(Ended::fault("fault hidraw", format!("{} is no hidraw device of Linux", Path::new(path).display())));
    }
    let text = text_of(Some(&told.join("device/report_descriptor").into()), "descriptor")?;
    let is_device = is_device(&file);
    Ok((file, is_device, text))
}

/// The most bytes of a text.
const MOST: usize = 1_048_576;

/// All of a text, at most 1,048,576 bytes; a sentence calls it this.
pub fn text_of(path: Option<&OsString>, name: &str) -> Result<Vec<u8>, Ended> {
    let read = read_text((), &mut opened(path)?.0);
    read.map_err(|error| match error {
        ReadError::TooLong => too_long(path, name),
        ReadError::Input => {
            Ended::fault("fault input", format!("the {} can't be read", name.replace("script", "input"))).naming(path)
        }
        ReadError::Memory => Ended::memory(),
    })
}

/// The refusal of a text that is too long.
pub fn too_long(path: Option<&OsString>, name: &str) -> Ended {
    Ended::fault("fault too long", format!("the {name} is longer than {MOST} bytes")).naming(path)
}

/// The lines of a text within its first 1,048,576 bytes, and whether more follow.
pub fn start_of(path: Option<&OsString>, name: &str) -> Result<(Vec<u8>, bool), Ended> {
    let mut text = Vec::new();
    let read = opened(path)?.0.take(MOST as u64 + 1).read_to_end(&mut text);
    read.map_err(|_| Ended::fault("fault input", format!("the {name} can't be read")).naming(path))?;
    let is_cut = text.len() > MOST;
    if is_cut {
        text.truncate(text.iter().rposition(|byte| *byte == b'\n').map_or(0, |end| end + 1));
    }
    Ok((text, is_cut))
}

/// The number of a device as sysfs writes it, which is 0:0 of a file or a FIFO.
#[cfg(unix)]
fn device_number(file: &File) -> String {
    use std::os::unix::fs::MetadataExt;
    let number = file.metadata().map_or(0, |metadata| metadata.rdev());
    let major = number >> 32 & 0xFFFF_F000 | number >> 8 & 0xFFF;
    let minor = number >> 12 & 0xFFFF_FF00 | number & 0xFF;
    format!("{major}:{minor}")
}

#[cfg(not(unix))]
fn device_number(_: &File) -> String {
    "0:0".into()
}

#[cfg(unix)]
fn is_device(file: &File) -> bool {
    use std::os::unix::fs::FileTypeExt;
    file.metadata().is_ok_and(|metadata| metadata.file_type().is_char_device())
}

#[cfg(not(unix))]
fn is_device(_: &File) -> bool {
    false
}
