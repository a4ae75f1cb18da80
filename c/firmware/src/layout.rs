// SPDX-License-Identifier: MIT OR Apache-2.0
//! The codes that the keys have at first: a table that a firmware lends, or the standard ones.

use crate::edge::{Lasting, Output, codes};
use crate::status::{Answer, Status, told};
use core::ffi::c_int;
use core_of_keyboard::{Code, Defaults, KEYS, LAYERS, Standard};

/// The number of each code, by place: 96 times the layer plus the key.
pub type Codes = [u16; LAYERS * KEYS];

/// The default codes of the keyboard whose call runs.
pub enum Board {}

impl Defaults for Board {
    fn code_at(place: usize) -> Code {
        match codes() {
            Some(codes) => Code::read(codes[place]).unwrap_or(Code::NONE),
            None => Standard::code_at(place),
        }
    }

    fn reset(codes: &mut [Code], start: usize, end: usize) {
        for (place, code) in (start..end).zip(&mut codes[start..end]) {
            *code = Board::code_at(place);
        }
    }
}

/// The first place whose number is no code.
fn wrong_place(codes: &Codes) -> Option<usize> {
    codes.iter().position(|&bits| Code::read(bits).is_err())
}

/// The table, or none. `Code` where a number of it is none.
pub fn checked(layout: &Lasting<Codes>) -> Result<Option<&'static Codes>, Status> {
    match layout.get()? {
        Some(codes) if wrong_place(codes).is_some() => Err(Status::Code),
        lent => Ok(lent),
    }
}

#[unsafe(no_mangle)]
pub extern "C" fn wz_layout_check(layout: Lasting<Codes>, layer: Output<u8>, key: Output<u8>) -> c_int {
    let check = || -> Answer {
        let codes = layout.get()?.ok_or(Status::Null)?;
        let (layer, key) = (layer.room(1)?, key.room(1)?);
        match wrong_place(codes) {
            Some(place) => {
                layer.set(0, (place / KEYS) as u8);
                key.set(0, (place % KEYS) as u8);
                Err(Status::Code)
            }
            None => Ok(0),
        }
    };
    told(check())
}
