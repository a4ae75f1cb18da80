// SPDX-License-Identifier: MIT OR Apache-2.0
//! `wz_settings`: settings with their flash.

use crate::edge::{Handle, Input, Kept, Lent, Output, Value as Given};
use crate::flash::{Flash, Table};
use crate::status::{Answer, Status};
use core::ffi::c_int;
use wuzhikar_log::{Change, FlashSettings, MAX_BYTES, SettingsError, Value};

type Settings = FlashSettings<Flash>;

impl Kept for Settings {
    type Lent = ();
    const UNSTARTED: () = ();
}

/// The length of a change that removes a value.
pub const REMOVE: u16 = 0xffff;

/// The most changes of a transaction: each has a word of the 511 of a page, or takes one away.
const MOST_CHANGES: usize = 1022;

/// `wz_change`
#[repr(C)]
#[derive(Clone, Copy)]
pub struct ChangeIn {
    pub bytes: Input<u8>,
    pub id: u16,
    pub length: u16,
}

fn stored(done: Result<(), SettingsError>) -> Answer {
    done.map(|()| 0).map_err(|error| match error {
        SettingsError::TooLong => Status::TooLong,
        SettingsError::Full => Status::Full,
        SettingsError::Unsound => Status::Unsound,
        SettingsError::Foreign => Status::Foreign,
        SettingsError::Worn => Status::Worn,
        SettingsError::Fault => Status::Fault,
    })
}

impl ChangeIn {
    /// The change that it says.
    fn read(&self) -> Result<Change, Status> {
        let value = match self.length {
            REMOVE => None,
            length => Some(Value::new(bytes_of(&self.bytes, length.into())?).ok_or(Status::TooLong)?),
        };
        Ok(Change { id: self.id, value })
    }
}

/// The bytes of a value. `TooLong` for more than it may have, before any is looked at.
fn bytes_of(bytes: &Input<u8>, length: usize) -> Result<&[u8], Status> {
    if length > MAX_BYTES { Err(Status::TooLong) } else { bytes.get(length, MAX_BYTES) }
}

#[unsafe(no_mangle)]
pub extern "C" fn wz_settings_start(settings: Handle<Settings>, flash: Given<Table>) -> c_int {
    settings.start(|_| FlashSettings::mount(Flash::from_table(&flash)?).map_err(|_| Status::Pages))
}

#[unsafe(no_mangle)]
pub extern "C" fn wz_settings_get(settings: Handle<Settings>, id: u16, bytes: Output<u8>, room: usize) -> c_int {
    settings.call(|settings| bytes.room(room)?.put(settings.get(id).ok_or(Status::Absent)?.as_bytes()))
}

#[unsafe(no_mangle)]
pub extern "C" fn wz_settings_next(
    settings: Handle<Settings>,
    from: u32,
    id: Output<u16>,
    bytes: Output<u8>,
    room: usize,
) -> c_int {
    settings.call(|settings| {
        let (id, bytes) = (id.room(1)?, bytes.room(room)?);
        let (found, value) = settings.iter().find(|(found, _)| u32::from(*found) >= from).ok_or(Status::Absent)?;
        let length = bytes.put(value.as_bytes())?;
        id.set(0, found);
        Ok(length)
    })
}

#[unsafe(no_mangle)]
pub extern "C" fn wz_settings_set(settings: Handle<Settings>, id: u16, bytes: Input<u8>, length: usize) -> c_int {
    settings.call(|settings| stored(settings.set(id, bytes_of(&bytes, length)?)))
}

#[unsafe(no_mangle)]
pub extern "C" fn wz_settings_remove(settings: Handle<Settings>, id: u16) -> c_int {
    settings.call(|settings| stored(settings.remove(id)))
}

#[unsafe(no_mangle)]
pub extern "C" fn wz_settings_transaction(
    settings: Handle<Settings>,
    changes: Input<ChangeIn>,
    count: usize,
    memory: Lent<Change>,
) -> c_int {
    settings.call(|settings| {
        let changes = changes.get(count, MOST_CHANGES)?;
        stored(settings.transaction(memory.fill(changes, ChangeIn::read)?))
    })
}

#[unsafe(no_mangle)]
pub extern "C" fn wz_settings_compact(settings: Handle<Settings>) -> c_int {
    settings.call(|settings| stored(settings.compact()))
}

#[unsafe(no_mangle)]
pub extern "C" fn wz_settings_room_left(settings: Handle<Settings>) -> c_int {
    settings.call(|settings| Ok(settings.room_left() as c_int))
}

#[unsafe(no_mangle)]
pub extern "C" fn wz_settings_format(settings: Handle<Settings>, flash: Given<Table>) -> c_int {
    settings.start(|_| {
        FlashSettings::format(Flash::from_table(&flash)?).map(|(settings, _)| settings).map_err(|_| Status::Fault)
    })
}
