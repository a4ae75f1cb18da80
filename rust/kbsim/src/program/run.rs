//! Running a script, and keeping the bytes of its flash in a file.

use super::ends::{Ended, tell};
use super::files::{opened, output, text_of};
use super::{save, sentences};
use clap::ArgMatches;
use kbsim::parts::explanations::{Explainer, Tell};
use kbsim::{RunError, SimFlash, blank_flash, image_flash, run_on, run_with};
use std::ffi::OsString;
use std::fmt::Display;
use std::path::Path;

/// Runs a script. Standard error says in a sentence what a fault is, and with `--explain` what each answer means.
pub fn run(given: &ArgMatches) -> Result<(), Ended> {
    let path = |name| given.get_one::<OsString>(name);
    let flash = flash_of(path("image"), given.get_one("pages").copied().unwrap_or(2))?;
    let text = text_of(path("file"), "script")?;
    let flash = run_text(flash, &text, path("file"), given.get_flag("explain"))?;
    match path("save").map(|path| save::save(Path::new(path), flash.image())) {
        Some(Err(why)) => Err(Ended::Said(format!("error: the flash can't be saved: {why}"))),
        _ => Ok(()),
    }
}

/// The flash that a run starts on.
fn flash_of(image: Option<&OsString>, pages: u8) -> Result<SimFlash, Ended> {
    let flash = match image {
        None => blank_flash(pages.into()),
        Some(path) => image_flash(&mut opened(Some(path))?.0),
    };
    flash.map_err(|error| {
        let line = match error {
            RunError::Image => "fault image",
            RunError::Input => "fault input",
            _ => "fault memory",
        };
        Ended::fault(line, error.to_string()).naming(image)
    })
}

/// Runs a script on a flash.
fn run_text(flash: SimFlash, mut text: &[u8], path: Option<&OsString>, explain: bool) -> Result<SimFlash, Ended> {
    let (pages, script, mut out) = (flash.image().len() / 4096, text, output()?);
    let ended = if explain {
        let mut explainer = Explainer::new(&flash, StandardError);
        run_with(flash, &mut text, &mut out, &mut explainer)
    } else {
        run_on(flash, &mut text, &mut out)
    };
    ended.map_err(|error| match error {
        RunError::Output => Ended::Output,
        RunError::Line { line, .. } => Ended::Said(sentences::line_fault(pages, script, line).unwrap_or_default()).naming(path),
        _ => Ended::Said(error.to_string()),
    })
}

/// Standard error, as a place of sentences.
struct StandardError;

impl Tell for StandardError {
    fn tell<T: Display>(&mut self, sentence: &T) {
        tell(sentence);
    }
}
