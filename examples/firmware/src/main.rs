// SPDX-License-Identifier: MIT OR Apache-2.0
//! A keyboard's firmware on the exported crate.
//!
//! `board` says which switch is which key, and what the keys are at first. `flash` is the driver of the chip's flash, `chip`
//! what a chip has to give. The keyboard, the USB device layer before it and its flash are one `Device` of the crate
//! `wuzhikar_device`. `run` is the main loop; it is the same on every chip.
//!
//! On a machine with an operating system, `main` plays a chip, and prints what goes onto the bus. The host enumerates the
//! keyboard, the key of the letter a is pressed, and the host makes it a b. Once the host was told that this is stored, the
//! power is cut, and the key is pressed again. Then the layer key is held, so that 1 is F1.
#![cfg_attr(target_os = "none", no_std, no_main)]
#![deny(unsafe_code)]

mod board;
mod chip;
mod flash;

#[cfg(target_os = "none")]
mod bare;
#[cfg(not(target_os = "none"))]
mod played;

use board::{SWITCHES, Sixty};
use chip::{Cells, Chip, Event, PRODUCT};
use flash::{Flash, FlashController};
use wuzhikar::{PAGE_BYTES, UnstartedKeyboardOf, Work};
use wuzhikar_device::Device;

/// All that is large: the keyboard, and cells in place of the chip's flash. It is zeros, so that a `static` of it takes
/// no ROM, and nothing of it is ever moved.
struct Board {
    keyboard: UnstartedKeyboardOf<Sixty>,
    cells: Cells,
}

impl Board {
    const NEW: Board = Board { keyboard: UnstartedKeyboardOf::NEW, cells: Cells::ZEROS };

    /// Erases the cells, as those of a chip are in the factory.
    fn erase(&mut self) {
        for page in 0..Cells::PAGES {
            self.cells.erase(PAGE_BYTES * page);
        }
    }
}

/// The main loop, until the power goes: an event, or, where none waits, a step of the flash work. The calls take turns,
/// so the interrupts only leave their events for this loop.
fn run<C: Chip>(chip: &mut C, board: &mut Board) {
    let flash = Flash::new(&mut board.cells);
    // The cells have 2 pages, so that none is refused.
    let Ok(mut device) = Device::start_in(&mut board.keyboard, flash, &PRODUCT) else { return };
    loop {
        match chip.event() {
            Event::Millisecond(rows) => device.scan(SWITCHES.scan(|row, column| rows[row] >> column & 1 != 0)),
            Event::Setup(packet) => device.setup(packet),
            Event::Out(packet, len) => {
                chip.answer(&device.out(packet.get(..len).unwrap_or(&packet)));
                chip.leds(device.leds());
            }
            Event::In => {
                let (answer, change) = device.in_packet();
                chip.answer(&answer);
                if let Some(change) = change {
                    chip.change(change);
                }
            }
            Event::Poll => chip.report(&device.poll()),
            Event::Reset => {
                device.bus_reset();
                chip.reset();
                chip.leds(device.leds());
            }
            // If the last answer of endpoint 0 was NAK, it has to be armed again, since the status stage is due. (Where
            // the answer comes at the token, as here, to arm it in any other case does no harm.)
            Event::Nothing => match device.work() {
                Work::Idle | Work::Working => {}
                Work::Settled | Work::Failed => chip.arm(),
            },
            Event::Cut => return,
        }
    }
}

#[cfg(not(target_os = "none"))]
fn main() {
    let mut chip = played::Played::new();
    let mut board = Board::NEW;
    board.erase();
    for _ in 0..2 {
        run(&mut chip, &mut board);
        println!("the power was cut");
    }
}
