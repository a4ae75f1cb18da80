// SPDX-License-Identifier: MIT OR Apache-2.0
//! For a chip: fills the stack with a pattern and looks how far calls of settings used it. What it finds goes out by Linux's
//! call `write`, which `qemu-arm` serves.
#![no_std]
#![no_main]

use core::arch::{asm, global_asm};
use core::ptr::{addr_of, addr_of_mut};

use settings_cost::{Cells, PAGES, Slots};
use wuzhikar_log::{Change, FlashSettings, PAGE_SLOTS, SLOT_BYTES, Value};

const STACK_BYTES: usize = 32768;
const PATTERN: u8 = 0xA5;

static mut STACK: [u8; STACK_BYTES] = [0; STACK_BYTES];
static mut SLOTS: Slots = [[0xFF; SLOT_BYTES]; PAGES * PAGE_SLOTS];
static mut SETTINGS: Option<FlashSettings<Cells<'static>>> = None;

global_asm!(
    ".globl _start",
    ".thumb_func",
    "_start:",
    "ldr r0, =STACK_TOP_OF_COST",
    "ldr r0, [r0]",
    "mov sp, r0",
    "bl measure_all",
    "movs r7, #1",
    "movs r0, #0",
    "svc 0",
);

/// Where the stack begins.
#[unsafe(no_mangle)]
static STACK_TOP_OF_COST: Top = Top(addr_of!(STACK).cast::<u8>().wrapping_add(STACK_BYTES));

#[repr(transparent)]
struct Top(#[allow(dead_code)] *const u8);

// SAFETY: a constant address.
unsafe impl Sync for Top {}

/// The bytes of stack below this call that `f` uses.
#[inline(never)]
fn depth(f: fn()) -> usize {
    let sp: usize;
    // SAFETY: reads the stack pointer. What is below it is in no use; 64 bytes are left for the loops here.
    unsafe {
        asm!("mov {}, sp", out(reg) sp, options(nomem, nostack));
        let bottom = addr_of_mut!(STACK).cast::<u8>();
        let free = sp - bottom as usize - 64;
        for at in 0..free {
            bottom.add(at).write_volatile(PATTERN);
        }
        f();
        let used = (0..free).find(|&at| bottom.add(at).read_volatile() != PATTERN).unwrap_or(free);
        sp - bottom as usize - used
    }
}

fn settings() -> &'static mut FlashSettings<Cells<'static>> {
    // SAFETY: nothing else runs, and no two of these are used at once.
    match unsafe { (*addr_of_mut!(SETTINGS)).as_mut() } {
        Some(settings) => settings,
        None => stop(),
    }
}

/// Starts on what the cells hold.
#[inline(never)]
fn mount() {
    // SAFETY: as above.
    unsafe {
        SETTINGS = None;
        let cells = Cells { slots: &mut *addr_of_mut!(SLOTS), programs: 0, erases: 0 };
        SETTINGS = FlashSettings::mount(cells).ok();
    }
}

/// Reads a value that is there.
#[inline(never)]
fn get() {
    if settings().get(7).is_none() {
        stop();
    }
}

/// Stores values of 64 bytes so often that a page is compacted.
#[inline(never)]
fn set_often() {
    for round in 0..100 {
        if settings().set(7, [round; 64]).is_err() {
            stop();
        }
    }
}

/// Two changes together.
#[inline(never)]
fn both() {
    let changes = [1u16, 2].map(|id| Change { id, value: Some(Value::from(u32::from(id))) });
    if settings().transaction(&changes).is_err() {
        stop();
    }
}

#[unsafe(no_mangle)]
extern "C" fn measure_all() {
    tell(b"RAM", size_of::<FlashSettings<()>>());
    tell(b"mount", depth(mount));
    tell(b"set", depth(set_often));
    tell(b"get", depth(get));
    tell(b"transaction", depth(both));
}

/// Writes a line: a name and a number.
fn tell(name: &[u8], number: usize) {
    let mut digits = *b"    0\n";
    let mut left = number;
    for place in (0..5).rev() {
        if left > 0 {
            digits[place] = b'0' + (left % 10) as u8;
        }
        left /= 10;
    }
    write(name);
    write(&digits);
}

fn write(bytes: &[u8]) {
    // SAFETY: Linux's `write` to standard output.
    unsafe {
        asm!(
            "mov {kept}, r7",
            "movs r7, #4",
            "svc 0",
            "mov r7, {kept}",
            kept = out(reg) _,
            inlateout("r0") 1 => _,
            in("r1") bytes.as_ptr(),
            in("r2") bytes.len(),
            options(nostack)
        );
    }
}

/// Ends the program with status 1.
fn stop() -> ! {
    // SAFETY: Linux's `exit`.
    unsafe {
        asm!("movs r7, #1", "svc 0", in("r0") 1, options(noreturn));
    }
}

#[panic_handler]
fn panic(_info: &core::panic::PanicInfo) -> ! {
    stop()
}
