// SPDX-License-Identifier: MIT OR Apache-2.0
//! `wz_store_*`: settings on all pages. Each call is lent the flash, and keeps nothing.

use crate::edge::{Input, Output, Value as Given};
use crate::flash::{Flash, Table};
use crate::settings::{ChangeIn, REMOVE};
use crate::status::{Answer, Status, told};
use core::ffi::c_int;
use wuzhikar_log::paged::{Change, MAX_BYTES, PagedSettings, SettingsError};

/// The most changes of a transaction.
const MOST_CHANGES: usize = 16;

/// Makes a call on the settings of a flash.
fn on(flash: &Given<Table>, call: impl FnOnce(&mut PagedSettings<Flash>) -> Answer) -> c_int {
    let made = || call(&mut PagedSettings::mount(Flash::from_table(flash)?).map_err(|_| Status::Pages)?);
    told(made())
}

fn refused(error: SettingsError) -> Status {
    match error {
        SettingsError::TooLong => Status::TooLong,
        SettingsError::Foreign => Status::Foreign,
        SettingsError::Damaged => Status::Damaged,
        SettingsError::Full => Status::Full,
        SettingsError::Worn => Status::Worn,
        SettingsError::Fault => Status::Fault,
    }
}

fn stored(done: Result<(), SettingsError>) -> Answer {
    done.map(|()| 0).map_err(refused)
}

/// The bytes of a value. `TooLong` for more than it may have, before any is looked at.
fn bytes_of(bytes: &Input<u8>, length: usize) -> Result<&[u8], Status> {
    if length > MAX_BYTES { Err(Status::TooLong) } else { bytes.get(length, MAX_BYTES) }
}

/// The change that C says.
fn change_of(given: &ChangeIn) -> Result<Change<'_>, Status> {
    let value = match given.length {
        REMOVE => None,
        length => Some(bytes_of(&given.bytes, length.into())?),
    };
    Ok(Change { id: given.id, value })
}

#[unsafe(no_mangle)]
pub extern "C" fn wz_store_length(flash: Given<Table>, id: u16) -> c_int {
    on(&flash, |store| Ok(store.length(id).ok_or(Status::Absent)? as c_int))
}

#[unsafe(no_mangle)]
pub extern "C" fn wz_store_get(flash: Given<Table>, id: u16, bytes: Output<u8>, room: usize) -> c_int {
    on(&flash, |store| {
        let room = bytes.room(room)?;
        let length = store.length(id).ok_or(Status::Absent)?;
        room.lend(length, 0, |lent| {
            store.get(id, lent).map_err(refused)?.map_or(Err(Status::Absent), |read| Ok(read.len() as c_int))
        })
    })
}

#[unsafe(no_mangle)]
pub extern "C" fn wz_store_ids(flash: Given<Table>, ids: Output<u16>, room: usize) -> c_int {
    on(&flash, |store| {
        let place = ids.room(room)?;
        let mut count = 0;
        for id in store.ids() {
            if count >= room {
                return Err(Status::Room);
            }
            place.set(count, id);
            count += 1;
        }
        Ok(count as c_int)
    })
}

#[unsafe(no_mangle)]
pub extern "C" fn wz_store_set(flash: Given<Table>, id: u16, bytes: Input<u8>, length: usize) -> c_int {
    on(&flash, |store| stored(store.set(id, bytes_of(&bytes, length)?)))
}

#[unsafe(no_mangle)]
pub extern "C" fn wz_store_remove(flash: Given<Table>, id: u16) -> c_int {
    on(&flash, |store| stored(store.remove(id)))
}

#[unsafe(no_mangle)]
pub extern "C" fn wz_store_transaction(flash: Given<Table>, changes: Input<ChangeIn>, count: usize) -> c_int {
    on(&flash, |store| {
        let given = changes.get(count, MOST_CHANGES)?;
        let mut lent = [Change { id: 0, value: None }; MOST_CHANGES];
        for (change, given) in lent.iter_mut().zip(given) {
            *change = change_of(given)?;
        }
        stored(store.transaction(&lent[..given.len()]))
    })
}

#[unsafe(no_mangle)]
pub extern "C" fn wz_store_format(flash: Given<Table>) -> c_int {
    let format = || PagedSettings::format(Flash::from_table(&flash)?).map(|_| 0).map_err(|_| Status::Fault);
    told(format())
}
