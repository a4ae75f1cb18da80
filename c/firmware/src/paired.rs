// SPDX-License-Identifier: MIT OR Apache-2.0
//! `wz_paired`: a flash with error correction, two units for a slot, whose functions fill the table of a flash.

use crate::edge::{Handle, Kept, Output, Value};
use crate::flash::{Aligned, ended};
use crate::status::{Answer, Status};
use core::ffi::{c_int, c_void};
use wuzhikar_log::{EccFlash, FlashFault, NorFlash, PAGE_SLOTS, PairedFlash, SLOT_BYTES, UNIT_BYTES};

type Read = extern "C" fn(*mut c_void, usize, usize, *mut u8) -> c_int;
type Program = extern "C" fn(*mut c_void, usize, usize, *const u8) -> c_int;
type Erase = extern "C" fn(*mut c_void, usize) -> c_int;

/// `wz_units`
#[repr(C)]
#[derive(Clone, Copy)]
pub struct UnitTable {
    context: *mut c_void,
    pages: usize,
    read_unit: Option<Read>,
    program_unit: Option<Program>,
    erase_units: Option<Erase>,
}

/// Units, made of such a table with all its functions.
pub struct Units {
    context: *mut c_void,
    pages: usize,
    read: Read,
    program: Program,
    erase: Erase,
}

pub type Paired = PairedFlash<Units>;

impl Kept for Paired {
    type Lent = ();
    const UNSTARTED: () = ();
}

impl Units {
    fn from_table(table: &Value<UnitTable>) -> Result<Units, Status> {
        let UnitTable { context, pages, read_unit: Some(read), program_unit: Some(program), erase_units: Some(erase) } =
            table.get()?
        else {
            return Err(Status::Null);
        };
        if !(2..=8).contains(&pages) {
            return Err(Status::Pages);
        }
        Ok(Units { context, pages, read, program, erase })
    }
}

impl EccFlash for Units {
    fn pages(&self) -> usize {
        self.pages
    }

    fn read_unit(&self, page: usize, unit: usize) -> Option<[u8; UNIT_BYTES]> {
        let mut bytes = Aligned([0; UNIT_BYTES]);
        ((self.read)(self.context, page, unit, bytes.0.as_mut_ptr()) == 0).then_some(bytes.0)
    }

    fn program_unit(&mut self, page: usize, unit: usize, bytes: [u8; UNIT_BYTES]) -> Result<(), FlashFault> {
        let bytes = Aligned(bytes);
        ended((self.program)(self.context, page, unit, bytes.0.as_ptr()))
    }

    fn erase_units(&mut self, page: usize) -> Result<(), FlashFault> {
        ended((self.erase)(self.context, page))
    }
}

/// Makes a call of the flash for a slot, if the flash has this slot.
fn call_for_slot(paired: Handle<Paired>, page: usize, slot: usize, call: impl FnOnce(&mut Paired) -> Answer) -> c_int {
    paired.call(|paired| if page < paired.pages() && slot < PAGE_SLOTS { call(paired) } else { Err(Status::Range) })
}

fn done(done: Result<(), FlashFault>) -> Answer {
    done.map(|()| 0).map_err(|FlashFault| Status::Fault)
}

#[unsafe(no_mangle)]
pub extern "C" fn wz_paired_start(paired: Handle<Paired>, units: Value<UnitTable>) -> c_int {
    paired.start(|_| Units::from_table(&units).map(PairedFlash::mount))
}

#[unsafe(no_mangle)]
pub extern "C" fn wz_paired_format(paired: Handle<Paired>, units: Value<UnitTable>) -> c_int {
    paired.start(|_| PairedFlash::format(Units::from_table(&units)?).map_err(|FlashFault| Status::Fault))
}

#[unsafe(no_mangle)]
pub extern "C" fn wz_paired_read_slot(paired: Handle<Paired>, page: usize, slot: usize, bytes: Output<u8>) {
    let Ok(room) = bytes.room(SLOT_BYTES) else { return };
    // A slot that is neither Free nor a word, where the flash is not read.
    let mut read = [0; SLOT_BYTES];
    call_for_slot(paired, page, slot, |paired| {
        read = paired.read_slot(page, slot);
        Ok(0)
    });
    let _length = room.put(&read);
}

#[unsafe(no_mangle)]
pub extern "C" fn wz_paired_program_slot(
    paired: Handle<Paired>,
    page: usize,
    slot: usize,
    bytes: Value<[u8; SLOT_BYTES]>,
) -> c_int {
    call_for_slot(paired, page, slot, |paired| done(paired.program_slot(page, slot, bytes.get()?)))
}

#[unsafe(no_mangle)]
pub extern "C" fn wz_paired_erase_page(paired: Handle<Paired>, page: usize) -> c_int {
    call_for_slot(paired, page, 0, |paired| done(paired.erase_page(page)))
}
