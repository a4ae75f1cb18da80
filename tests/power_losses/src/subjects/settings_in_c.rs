// SPDX-License-Identifier: MIT OR Apache-2.0
//! Settings by the calls of `c/firmware/wuzhikar.h`, over a table of functions, as a firmware in C has them.
#![allow(unsafe_code)]

use std::cell::RefCell;
use std::ffi::{c_int, c_void};
use std::ptr::null;
use std::rc::Rc;

use in_c as _;
use wuzhikar_log::{Change, NorFlash, SLOT_BYTES, SettingsError, paged};

use super::paged::{Given as Gift, PagedCalls, PagedDoor};
use super::settings::{Calls, Door, Values};

/// WZ_SETTINGS_BYTES and WZ_CHANGE_BYTES, in words.
type Memory = [u64; 15];
type ChangeMemory = [u64; 9];

/// WZ_SETTING_BYTES, WZ_REMOVE and WZ_ABSENT.
const MOST: usize = 64;
const REMOVE: u16 = 0xFFFF;
const ABSENT: c_int = -11;

/// `wz_flash`
#[repr(C)]
struct Table {
    context: *mut c_void,
    pages: usize,
    read_slot: extern "C" fn(*mut c_void, usize, usize, *mut u8),
    program_slot: extern "C" fn(*mut c_void, usize, usize, *const u8) -> c_int,
    erase_page: extern "C" fn(*mut c_void, usize) -> c_int,
}

/// `wz_change`
#[repr(C)]
struct Given {
    bytes: *const u8,
    id: u16,
    length: u16,
}

unsafe extern "C" {
    fn wz_settings_start(settings: *mut Memory, flash: *const Table) -> c_int;
    fn wz_settings_get(settings: *mut Memory, id: u16, bytes: *mut u8, room: usize) -> c_int;
    fn wz_settings_next(settings: *mut Memory, from: u32, id: *mut u16, bytes: *mut u8, room: usize) -> c_int;
    fn wz_settings_set(settings: *mut Memory, id: u16, bytes: *const u8, length: usize) -> c_int;
    fn wz_settings_remove(settings: *mut Memory, id: u16) -> c_int;
    fn wz_settings_transaction(settings: *mut Memory, changes: *const Given, count: usize, memory: *mut ChangeMemory) -> c_int;
    fn wz_settings_compact(settings: *mut Memory) -> c_int;
    fn wz_store_get(flash: *const Table, id: u16, bytes: *mut u8, room: usize) -> c_int;
    fn wz_store_ids(flash: *const Table, ids: *mut u16, room: usize) -> c_int;
    fn wz_store_set(flash: *const Table, id: u16, bytes: *const u8, length: usize) -> c_int;
    fn wz_store_remove(flash: *const Table, id: u16) -> c_int;
    fn wz_store_transaction(flash: *const Table, changes: *const Given, count: usize) -> c_int;
}

/// The flash that a context leads to.
///
/// # Safety
///
/// The context is that of a table of `mount` for this type, and its settings are there.
unsafe fn flash_of<'f, F>(context: *mut c_void) -> &'f RefCell<F> {
    // SAFETY: `mount` made the context of a counted pointer that `OverC` holds.
    unsafe { &*context.cast::<RefCell<F>>() }
}

extern "C" fn read_slot<F: NorFlash>(context: *mut c_void, page: usize, slot: usize, bytes: *mut u8) {
    // SAFETY: the library calls with the context and with room for a slot.
    unsafe {
        let read = flash_of::<F>(context).borrow().read_slot(page, slot);
        bytes.copy_from_nonoverlapping(read.as_ptr(), SLOT_BYTES);
    }
}

extern "C" fn program_slot<F: NorFlash>(context: *mut c_void, page: usize, slot: usize, bytes: *const u8) -> c_int {
    // SAFETY: the library calls with the context and with the bytes of a slot.
    let (flash, bytes) = unsafe { (flash_of::<F>(context), bytes.cast::<[u8; SLOT_BYTES]>().read()) };
    flash.borrow_mut().program_slot(page, slot, bytes).is_err().into()
}

extern "C" fn erase_page<F: NorFlash>(context: *mut c_void, page: usize) -> c_int {
    // SAFETY: the library calls with the context.
    unsafe { flash_of::<F>(context) }.borrow_mut().erase_page(page).is_err().into()
}

/// The functions that lead to a flash.
fn table_of<F: NorFlash>(flash: &Rc<RefCell<F>>, pages: usize) -> Table {
    Table {
        context: Rc::as_ptr(flash).cast_mut().cast(),
        pages,
        read_slot: read_slot::<F>,
        program_slot: program_slot::<F>,
        erase_page: erase_page::<F>,
    }
}

/// The calls of C.
pub enum InC {}

impl Door for InC {
    const NAME: &'static str = "settings in C";
    type On<F: NorFlash> = OverC<F>;
}

/// Settings in memory that is lent to the library, and the flash that its functions lead to.
pub struct OverC<F> {
    flash: Rc<RefCell<F>>,
    memory: Box<Memory>,
}

/// What a call answered.
fn answered(status: c_int) -> Result<(), SettingsError> {
    match status {
        0 => Ok(()),
        -16 => Err(SettingsError::Unsound),
        -17 => Err(SettingsError::Worn),
        -18 => Err(SettingsError::Fault),
        -19 => Err(SettingsError::TooLong),
        -20 => Err(SettingsError::Full),
        -21 => Err(SettingsError::Foreign),
        other => panic!("a call answers {other}"),
    }
}

impl<F: NorFlash> Calls<F> for OverC<F> {
    fn mount(flash: F) -> Self {
        let pages = flash.pages();
        let (flash, mut memory) = (Rc::new(RefCell::new(flash)), Box::new([0; 15]));
        let table = table_of(&flash, pages);
        // SAFETY: the memory is zeros, has the header's size and stays where it is; its flash lives beside it.
        assert_eq!(unsafe { wz_settings_start(&raw mut *memory, &raw const table) }, 0, "2 to 8 pages");
        OverC { flash, memory }
    }

    fn all(&mut self) -> Values {
        let (mut values, mut from, mut bytes, mut id) = (Values::new(), 0, [0; MOST], 0);
        // SAFETY: the memory was started; there is room for an id and for 64 bytes.
        while let length @ 0.. = unsafe { wz_settings_next(&raw mut *self.memory, from, &raw mut id, bytes.as_mut_ptr(), MOST) }
        {
            values.insert(id, bytes[..length as usize].to_vec());
            from = u32::from(id) + 1;
        }
        values
    }

    fn get(&mut self, id: u16) -> Option<Vec<u8>> {
        let mut bytes = [0; MOST];
        // SAFETY: the memory was started; there is room for 64 bytes.
        match unsafe { wz_settings_get(&raw mut *self.memory, id, bytes.as_mut_ptr(), MOST) } {
            ABSENT => None,
            length => Some(bytes[..usize::try_from(length).expect("a length")].to_vec()),
        }
    }

    fn change(&mut self, changes: &[Change]) -> Result<(), SettingsError> {
        let memory = &raw mut *self.memory;
        let bytes_of = |change: &Change| {
            change.value.as_ref().map_or((null(), REMOVE), |value| (value.as_bytes().as_ptr(), value.as_bytes().len() as u16))
        };
        // SAFETY: the memory was started, and the values are those of `changes`, which stand beside it.
        answered(unsafe {
            match changes {
                [] => wz_settings_compact(memory),
                [Change { id, value: Some(value) }] => {
                    wz_settings_set(memory, *id, value.as_bytes().as_ptr(), value.as_bytes().len())
                }
                [Change { id, value: None }] => wz_settings_remove(memory, *id),
                changes => {
                    let given: Vec<Given> = changes
                        .iter()
                        .map(|change| (change.id, bytes_of(change)))
                        .map(|(id, (bytes, length))| Given { bytes, id, length })
                        .collect();
                    let mut lent: Vec<ChangeMemory> = vec![[0; 9]; given.len()];
                    wz_settings_transaction(memory, given.as_ptr(), given.len(), lent.as_mut_ptr())
                }
            }
        })
    }

    fn into_flash(self) -> F {
        Rc::into_inner(self.flash).expect("held here alone").into_inner()
    }
}

impl PagedDoor for InC {
    const NAME: &'static str = "settings on all pages in C";
    type On<F: NorFlash> = PagedOverC<F>;
}

/// The flash that the functions of a table lead to.
pub struct PagedOverC<F> {
    flash: Rc<RefCell<F>>,
    table: Table,
}

/// What a call answered.
fn paged_answer(status: c_int) -> Result<(), paged::SettingsError> {
    match status {
        0 => Ok(()),
        -17 => Err(paged::SettingsError::Worn),
        -18 => Err(paged::SettingsError::Fault),
        -19 => Err(paged::SettingsError::TooLong),
        -20 => Err(paged::SettingsError::Full),
        -21 => Err(paged::SettingsError::Foreign),
        -22 => Err(paged::SettingsError::Damaged),
        other => panic!("a call answers {other}"),
    }
}

impl<F: NorFlash> PagedCalls<F> for PagedOverC<F> {
    fn mount(flash: F) -> Self {
        let pages = flash.pages();
        let flash = Rc::new(RefCell::new(flash));
        PagedOverC { table: table_of(&flash, pages), flash }
    }

    fn pages(&self) -> usize {
        self.table.pages
    }

    fn ids(&self) -> Vec<u16> {
        let mut ids = vec![0; 4096];
        // SAFETY: the flash of the table lives beside it; there is room for as many ids.
        let count = unsafe { wz_store_ids(&raw const self.table, ids.as_mut_ptr(), ids.len()) };
        ids.truncate(usize::try_from(count).expect("fewer ids"));
        ids
    }

    fn read(&self, id: u16) -> Option<Vec<u8>> {
        let mut bytes = vec![0; 1024];
        // SAFETY: as above, and there is room for 1,024 bytes.
        let length = match unsafe { wz_store_get(&raw const self.table, id, bytes.as_mut_ptr(), bytes.len()) } {
            ABSENT => return None,
            length => usize::try_from(length).expect("a length"),
        };
        bytes.truncate(length);
        Some(bytes)
    }

    fn change(&mut self, changes: &[Gift]) -> Result<(), paged::SettingsError> {
        let table = &raw const self.table;
        // SAFETY: as above, and the values are those of `changes`, which stand beside it.
        paged_answer(unsafe {
            match changes {
                [(id, Some(value))] => wz_store_set(table, *id, value.as_ptr(), value.len()),
                [(id, None)] => wz_store_remove(table, *id),
                changes => {
                    let given: Vec<Given> = changes
                        .iter()
                        .map(|(id, value)| match value {
                            Some(value) => Given { bytes: value.as_ptr(), id: *id, length: value.len() as u16 },
                            None => Given { bytes: null(), id: *id, length: REMOVE },
                        })
                        .collect();
                    wz_store_transaction(table, given.as_ptr(), given.len())
                }
            }
        })
    }

    fn into_flash(self) -> F {
        Rc::into_inner(self.flash).expect("held here alone").into_inner()
    }
}
