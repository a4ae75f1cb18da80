// SPDX-License-Identifier: MIT OR Apache-2.0
//! What the words of the command line ask for, and doing it.

use crate::file::{self, Keymap};
use crate::keyboard::{self, Entry, Error, Features};
use crate::which::Which;
use std::ffi::{OsStr, OsString};
use std::fs::File;
use std::io::Read;
use std::path::PathBuf;
use wuzhikar::{Code, LayerNo};

/// What was asked for.
#[derive(Debug, PartialEq, Eq)]
pub enum Given {
    Help,
    Run(Run),
}

#[derive(Debug, PartialEq, Eq)]
pub struct Run {
    pub which: Which,
    pub command: Command,
}

#[derive(Debug, PartialEq, Eq)]
pub enum Command {
    Get(Entry),
    Set(Entry, Code),
    Reset(Option<LayerNo>),
    Dump(Option<String>),
    Load(PathBuf),
    /// A load whose file was read.
    Apply(Keymap),
}

/// What is printed of a command that was done.
#[derive(Debug, PartialEq, Eq)]
pub struct Ran(pub String);

impl Given {
    /// Reads the words, or says what is wrong with them.
    pub fn read(words: &[OsString]) -> Result<Given, String> {
        let mut which = Which::default();
        let mut words = words.iter().map(OsString::as_os_str);
        let rest: Vec<&OsStr> = loop {
            let word = words.next();
            match word.map(OsStr::to_string_lossy).as_deref() {
                Some("--help" | "-h") => return Ok(Given::Help),
                Some("--device") => which.device = Some(words.next().ok_or("--device names a file")?.into()),
                Some("--id") => {
                    let given = words.next().and_then(OsStr::to_str);
                    which.id = Some(given.and_then(id).ok_or("--id is four hex digits, a colon, and four")?);
                }
                Some(word) if word.starts_with('-') => return Err(format!("{word} is no option")),
                _ => break word.into_iter().chain(words).collect(),
            }
        };
        Command::read(&rest).map(|command| Given::Run(Run { which, command }))
    }
}

impl Command {
    fn read(words: &[&OsStr]) -> Result<Command, String> {
        // The replacement character, for bytes that are no text, is part of no number, code or command.
        let texts: Vec<_> = words.iter().map(|word| word.to_string_lossy()).collect();
        let texts: Vec<&str> = texts.iter().map(|text| &text[..]).collect();
        Ok(match texts[..] {
            ["get", layer, key] => Command::Get(entry(layer, key)?),
            ["set", layer, key, code] => {
                let code = file::code(code).ok_or_else(|| format!("{code:?} is no code of four hex digits"))?;
                Command::Set(entry(layer, key)?, code)
            }
            ["reset"] => Command::Reset(None),
            ["reset", layer] => Command::Reset(Some(entry(layer, "0")?.layer)),
            ["dump"] => Command::Dump(None),
            ["dump", _] => Command::Dump(Some(words[1].to_str().ok_or("the name is no text in UTF-8")?.to_string())),
            ["load", _] => Command::Load(words[1].into()),
            [] => return Err("no command".to_string()),
            _ => return Err(format!("no such command: {}", texts.join(" "))),
        })
    }

    /// The same, with the file read that it names: a wrong file is told before a keyboard is looked for.
    pub fn with_file(self) -> Result<Command, Error> {
        let Command::Load(path) = self else { return Ok(self) };
        let mut bytes = Vec::new();
        File::open(&path)
            .and_then(|file| file.take(file::MOST as u64 + 1).read_to_end(&mut bytes))
            .map_err(|error| Error::Read(path.clone(), error))?;
        Keymap::read(&bytes).map(Command::Apply).map_err(|error| Error::File(path, error))
    }

    /// Does it, and gives what is printed.
    pub fn run(self, features: &mut impl Features) -> Result<Ran, Error> {
        Ok(Ran(match self {
            Command::Get(entry) => format!("{:04x}\n", keyboard::get(features, entry)?.bits()),
            Command::Set(entry, code) => {
                keyboard::set(features, entry, code)?;
                "stored\n".to_string()
            }
            Command::Reset(layer) => {
                keyboard::reset(features, layer)?;
                "stored\n".to_string()
            }
            Command::Dump(name) => keyboard::dump(features)?.write(name.as_deref()),
            Command::Load(_) => return self.with_file()?.run(features),
            Command::Apply(keymap) => {
                format!("{} entries differed, and are stored\n", keyboard::load(features, &keymap)?)
            }
        }))
    }
}

fn entry(layer: &str, key: &str) -> Result<Entry, String> {
    let number = |text: &str| if text.starts_with('+') { None } else { text.parse().ok() };
    number(layer)
        .zip(number(key))
        .and_then(|(layer, key)| Entry::from_numbers(layer, key))
        .ok_or_else(|| format!("layer {layer} (0 to 3), key {key} (0 to 95) is no entry"))
}

/// Vendor and product, four hex digits each.
fn id(text: &str) -> Option<(u16, u16)> {
    let number = |text: &str| {
        let digits = text.len() == 4 && text.bytes().all(|digit| digit.is_ascii_hexdigit());
        digits.then(|| u16::from_str_radix(text, 16).ok()).flatten()
    };
    let (vendor, product) = text.split_once(':')?;
    Some((number(vendor)?, number(product)?))
}

#[cfg(test)]
mod tests;
