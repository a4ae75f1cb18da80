//! The firmware's parts over a chip that is played.

use crate::board::{COLUMNS, Codes, LAMP, PRODUCT, Pads, ROWS, scan};
use crate::boot::{STAGE, crc32};
use crate::flash::{Calls, END, Flash, PAGE, PAGES, SECTOR, START, pages};
use crate::rp2040_usb::played::{Played, Wired};
use crate::rp2040_usb::{Rp2040, Rp2040Usb};
use std::cell::{Cell, RefCell};
use wuzhikar_device::Product;
use wuzhikar_device::testing::{self, Cells, Firmware, UsbOf};
use wuzhikar_log::{FlashDriver, MarkedUnits, SteadyFlash, check_marks};

/// How far the ROM's calls are.
#[derive(Clone, Copy, Debug, PartialEq)]
enum Stage {
    Mapped,
    Connected,
    Left,
    Flushed,
}

/// The log's pages behind the ROM's calls, and how far these are.
struct PlayedRom(RefCell<Vec<u8>>, Cell<Stage>);

impl PlayedRom {
    fn new() -> PlayedRom {
        PlayedRom(RefCell::new(vec![0xff; (END - START) as usize]), Cell::new(Stage::Mapped))
    }

    fn goes(&self, from: Stage, to: Stage) {
        assert_eq!(self.1.replace(to), from, "before {to:?}");
    }

    fn cells(&self, offset: u32, bytes: u32, does: impl FnOnce(&mut [u8])) {
        assert_eq!(self.1.get(), Stage::Left);
        assert!(offset >= START && offset % bytes == 0, "{offset:x}");
        does(&mut self.0.borrow_mut()[(offset - START) as usize..][..bytes as usize]);
    }
}

impl Calls for &PlayedRom {
    fn connect(&self) {
        self.goes(Stage::Mapped, Stage::Connected);
    }

    fn leave(&self) {
        self.goes(Stage::Connected, Stage::Left);
    }

    fn erase(&self, offset: u32) {
        self.cells(offset, SECTOR, |cells| cells.fill(0xff));
    }

    fn program(&self, offset: u32, page: &[u8; PAGE as usize]) {
        self.cells(offset, PAGE, |cells| cells.iter_mut().zip(page).for_each(|(cell, byte)| *cell &= byte));
    }

    fn flush(&self) {
        self.goes(Stage::Left, Stage::Flushed);
    }

    fn map(&self) {
        self.goes(Stage::Flushed, Stage::Mapped);
    }

    fn reset(&self) {
        panic!("the flash never fails");
    }

    fn word(&self, offset: u32) -> u32 {
        assert_eq!(self.1.get(), Stage::Mapped);
        u32::from_le_bytes(self.0.borrow()[(offset - START) as usize..][..4].try_into().unwrap())
    }
}

#[test]
fn the_checksum_is_that_of_the_rom() {
    // The check value of CRC-32/MPEG-2.
    assert_eq!(crc32(b"123456789"), 0x0376_e6e7);
    assert_eq!(crc32(&STAGE[..252]).to_le_bytes(), STAGE[252..]);
    // A checksum's own checksum is 0, where its highest byte comes first.
    assert_eq!(crc32(&[&STAGE[..252], &[STAGE[255], STAGE[254], STAGE[253], STAGE[252]]].concat()), 0);
}

#[test]
fn the_flash_driver_has_no_fault() {
    let rom = PlayedRom::new();
    check_marks(&mut MarkedUnits::new(Flash(&rom), START, PAGES).unwrap()).unwrap();
}

#[test]
fn a_write_over_the_edge_of_a_page_is_two() {
    let rom = PlayedRom::new();
    let mut flash = Flash(&rom);
    let bytes: Vec<u8> = (1..=200).collect();
    flash.write(START + 200, &bytes).unwrap();
    let mut found = [0; 204];
    flash.read(START + 200, &mut found).unwrap();
    assert_eq!((&found[..200], &found[200..]), (&bytes[..], &[0xff; 4][..]));
}

/// A matrix with one closed switch.
struct OneClosed(u32, u32, u32);

impl Pads for OneClosed {
    fn pull_down(&mut self, pin: u32, down: bool) {
        assert_eq!(self.2 >> pin & 1 != 0, !down);
        self.2 ^= 1 << pin;
    }

    fn levels(&mut self) -> u32 {
        let low = self.2 | if self.2 >> self.0 & 1 != 0 { 1 << self.1 } else { 0 };
        !low
    }
}

#[test]
fn no_pin_has_two_uses() {
    let pins = ROWS.iter().chain(&COLUMNS).chain(&[LAMP]);
    assert_eq!(pins.fold(0u32, |all, pin| all | 1 << pin).count_ones() as usize, ROWS.len() + COLUMNS.len() + 1);
}

#[test]
fn each_switch_is_seen_at_its_place() {
    for (row, column) in (0..ROWS.len()).flat_map(|row| (0..COLUMNS.len()).map(move |column| (row, column))) {
        let mut wanted = [0; ROWS.len()];
        wanted[row] = 1 << column;
        assert_eq!(scan(&mut OneClosed(ROWS[row], COLUMNS[column], 0)), wanted);
    }
}

type Steady = SteadyFlash<MarkedUnits<Flash<&'static PlayedRom>>>;

/// What is shipped.
struct Shipped;

impl Firmware for Shipped {
    type Registers = Played;
    type Driver = Rp2040Usb<'static, &'static Wired>;
    // (A start of a steady flash writes, so those that start beside one another share one.)
    type Cells = RefCell<Steady>;
    type Flash = Cells<Steady>;
    type Layout = Codes;

    fn product() -> &'static Product<'static> {
        &PRODUCT
    }

    fn registers() -> Played {
        Played::of(2)
    }

    fn driver(wire: &'static Wired) -> Self::Driver {
        Rp2040Usb(Box::leak(Box::new(Rp2040::start(wire))))
    }

    fn cells() -> RefCell<Steady> {
        RefCell::new(pages(&*Box::leak(Box::new(PlayedRom::new()))).unwrap())
    }

    fn flash(cells: &'static RefCell<Steady>) -> Cells<Steady> {
        Cells(cells)
    }

    fn round(driver: Self::Driver, device: &mut UsbOf<Self>) {
        driver.serve(device);
    }
}

#[test]
fn a_host_types_and_remaps() {
    testing::check::<Shipped>(300);
}
