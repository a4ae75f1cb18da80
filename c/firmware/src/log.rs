// SPDX-License-Identifier: MIT OR Apache-2.0
//! `wz_log`: a log of words with its flash.

use crate::edge::{Handle, Input, Kept, Output, Value};
use crate::flash::{Flash, Table};
use crate::status::{Answer, Status};
use core::ffi::{c_int, c_void};
use wuzhikar_log::{FlashLog, LogRefusal, Step, WriteError};

type Log = FlashLog<Flash>;

impl Kept for Log {
    type Lent = ();
    const UNSTARTED: () = ();
}

/// The most words of a page.
const MOST_WORDS: usize = 511;

/// What `wz_log_state` tells, a bit each.
const BUSY: c_int = 1;
const WANTS: c_int = 2;
const WANTS_COPY: c_int = 4;
const ROOM: c_int = 8;
const UNSOUND: c_int = 16;

fn refused(refusal: LogRefusal) -> Status {
    match refusal {
        LogRefusal::NotNow => Status::NotNow,
        LogRefusal::Unsound => Status::Unsound,
        LogRefusal::NoRoom => Status::NoRoom,
        LogRefusal::Worn => Status::Worn,
    }
}

fn taken(done: Result<(), LogRefusal>) -> Answer {
    done.map(|()| 0).map_err(refused)
}

fn stored(done: Result<(), WriteError>) -> Answer {
    done.map(|()| 0).map_err(|error| match error {
        WriteError::Refused(refusal) => refused(refusal),
        WriteError::Fault => Status::Fault,
    })
}

#[unsafe(no_mangle)]
pub extern "C" fn wz_log_start(log: Handle<Log>, flash: Value<Table>) -> c_int {
    log.start(|_| FlashLog::mount(Flash::from_table(&flash)?).map_err(|_| Status::Pages))
}

#[unsafe(no_mangle)]
pub extern "C" fn wz_log_words(log: Handle<Log>, words: Output<u32>, room: usize) -> c_int {
    log.call(|log| {
        let room = words.room(room)?;
        Ok(log.words().enumerate().map(|(number, word)| room.set(number, word)).count() as c_int)
    })
}

#[unsafe(no_mangle)]
pub extern "C" fn wz_log_push(log: Handle<Log>, word: u32) -> c_int {
    log.call(|log| stored(log.push(word)))
}

#[unsafe(no_mangle)]
pub extern "C" fn wz_log_rewrite(log: Handle<Log>, words: Input<u32>, count: usize) -> c_int {
    log.call(|log| stored(log.rewrite(words.get(count, MOST_WORDS)?.iter().copied())))
}

#[unsafe(no_mangle)]
pub extern "C" fn wz_log_rewrite_with(
    log: Handle<Log>,
    keep: Option<extern "C" fn(*mut c_void, u32) -> c_int>,
    context: *mut c_void,
) -> c_int {
    log.call(|log| {
        let keep = keep.ok_or(Status::Null)?;
        stored(log.rewrite_with(|word| keep(context, word) != 0))
    })
}

#[unsafe(no_mangle)]
pub extern "C" fn wz_log_format(log: Handle<Log>) -> c_int {
    log.call(|log| log.format().map(|_| 0).map_err(|_| Status::Fault))
}

#[unsafe(no_mangle)]
pub extern "C" fn wz_log_state(log: Handle<Log>) -> c_int {
    log.call(|log| {
        let told = [
            (log.busy(), BUSY),
            (log.wants(), WANTS),
            (log.wants_copy(), WANTS_COPY),
            (log.log().room(), ROOM),
            (log.usable().is_err(), UNSOUND),
        ];
        Ok(told.into_iter().filter(|(is_so, _)| *is_so).map(|(_, bit)| bit).sum())
    })
}

#[unsafe(no_mangle)]
pub extern "C" fn wz_log_append(log: Handle<Log>, word: u32) -> c_int {
    log.call(|log| taken(log.append(word)))
}

#[unsafe(no_mangle)]
pub extern "C" fn wz_log_turn(log: Handle<Log>) -> c_int {
    log.call(|log| taken(log.turn()))
}

#[unsafe(no_mangle)]
pub extern "C" fn wz_log_copy(log: Handle<Log>, word: u32) -> c_int {
    log.call(|log| taken(log.copy(word)))
}

#[unsafe(no_mangle)]
pub extern "C" fn wz_log_end_copies(log: Handle<Log>) -> c_int {
    log.call(|log| taken(log.end_copies()))
}

#[unsafe(no_mangle)]
pub extern "C" fn wz_log_step(log: Handle<Log>) -> c_int {
    log.call(|log| match log.step() {
        Step::Idle => Ok(0),
        Step::Moved => Ok(1),
        Step::Committed => Ok(2),
        Step::Failed => Err(Status::Fault),
    })
}
