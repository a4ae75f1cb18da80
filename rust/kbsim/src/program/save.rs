//! Keeping the bytes of a flash in a file.

use std::fs::{self, FileType, OpenOptions};
use std::io::{self, Write};
use std::path::{Path, PathBuf};
use thiserror::Error;

/// Why the bytes are not kept.
#[derive(Debug, Error)]
pub enum Unsaved {
    /// What stands at the path is no regular file.
    #[error("{} is {kind}, and no regular file", .path.display())]
    NoFile { path: PathBuf, kind: &'static str },
    #[error("FILE.part is there already")]
    Part,
    #[error("{0}")]
    Io(#[from] io::Error),
}

/// Puts these bytes into a regular file or a new one. They are written beside it, under its path with `.part` after it, which is
/// then renamed. Where that fails, what stood at the path stays, and the file beside it is removed; one that was there stays.
pub fn save(path: &Path, bytes: &[u8]) -> Result<(), Unsaved> {
    let place = place_of(path)?;
    let mut part = place.clone().into_os_string();
    part.push(".part");
    let mut file = OpenOptions::new().write(true).create_new(true).open(&part).map_err(|error| match error.kind() {
        io::ErrorKind::AlreadyExists => Unsaved::Part,
        _ => error.into(),
    })?;
    let written = file.write_all(bytes).and_then(|()| file.sync_all());
    drop(file);
    let ended = written.and_then(|()| fs::rename(&part, &place));
    if ended.is_err() {
        let _ = fs::remove_file(&part);
    }
    Ok(ended?)
}

/// The file that is written: of a link what it leads to, and else what has the path.
fn place_of(path: &Path) -> Result<PathBuf, Unsaved> {
    let refused = |kind| Unsaved::NoFile { path: path.into(), kind };
    // (Where nothing is found, or nothing can be looked at, the file beside it says why.)
    let Ok(found) = fs::symlink_metadata(path) else { return Ok(path.into()) };
    let is_link = found.file_type().is_symlink();
    let file = if is_link { fs::metadata(path).map_err(|_| refused("a link that leads nowhere"))? } else { found };
    if !file.is_file() {
        return Err(refused(kind_of(file.file_type())));
    }
    Ok(if is_link { fs::canonicalize(path)? } else { path.into() })
}

/// What something is that is no regular file.
fn kind_of(found: FileType) -> &'static str {
    #[cfg(unix)]
    {
        use std::os::unix::fs::FileTypeExt;
        if found.is_fifo() {
            return "a fifo";
        }
        if found.is_char_device() || found.is_block_device() {
            return "a device";
        }
        if found.is_socket() {
            return "a socket";
        }
    }
    if found.is_dir() { "a folder" } else { "something else" }
}
