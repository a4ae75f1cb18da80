// SPDX-License-Identifier: MIT OR Apache-2.0
//! The flash that a firmware lends, as a table of functions.

use crate::edge::Value;
use crate::status::Status;
use core::ffi::{c_int, c_void};
use wuzhikar_log::{FlashFault, NorFlash, SLOT_BYTES};

type Read = extern "C" fn(*mut c_void, usize, usize, *mut u8);
type Program = extern "C" fn(*mut c_void, usize, usize, *const u8) -> c_int;
type Erase = extern "C" fn(*mut c_void, usize) -> c_int;

/// `wz_flash`
#[repr(C)]
#[derive(Clone, Copy)]
pub struct Table {
    pub context: *mut c_void,
    pub pages: usize,
    pub read_slot: Option<Read>,
    pub program_slot: Option<Program>,
    pub erase_page: Option<Erase>,
}

/// A flash by such a table, all of whose functions are there.
pub struct Flash {
    context: *mut c_void,
    pages: usize,
    read: Read,
    program: Program,
    erase: Erase,
}

/// Eight bytes that a chip can read as words.
#[repr(align(8))]
pub struct Aligned(pub [u8; SLOT_BYTES]);

impl Flash {
    /// Makes the flash of a table. `Null` if the table or one of its functions is null, `Pages` if there are not 2 to 8.
    pub fn from_table(table: &Value<Table>) -> Result<Flash, Status> {
        let Table { context, pages, read_slot: Some(read), program_slot: Some(program), erase_page: Some(erase) } =
            table.get()?
        else {
            return Err(Status::Null);
        };
        if !(2..=8).contains(&pages) {
            return Err(Status::Pages);
        }
        Ok(Flash { context, pages, read, program, erase })
    }
}

/// What a function answered: 0, or a fault.
pub fn ended(answer: c_int) -> Result<(), FlashFault> {
    if answer == 0 { Ok(()) } else { Err(FlashFault) }
}

impl NorFlash for Flash {
    fn pages(&self) -> usize {
        self.pages
    }

    fn read_slot(&self, page: usize, slot: usize) -> [u8; SLOT_BYTES] {
        let mut bytes = Aligned([0; SLOT_BYTES]);
        (self.read)(self.context, page, slot, bytes.0.as_mut_ptr());
        bytes.0
    }

    fn program_slot(&mut self, page: usize, slot: usize, bytes: [u8; SLOT_BYTES]) -> Result<(), FlashFault> {
        let bytes = Aligned(bytes);
        ended((self.program)(self.context, page, slot, bytes.0.as_ptr()))
    }

    fn erase_page(&mut self, page: usize) -> Result<(), FlashFault> {
        ended((self.erase)(self.context, page))
    }
}
