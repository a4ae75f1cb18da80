//! A confirmed key on flash whose torn cells read now so, now otherwise, and whose erase programs to 0 first: it is lost on a plain
//! adapter, and kept on a steady one.

use wuzhikar::{EpAnswer, FlashKeyboard, KeyNo, LayerNo, NorFlash, Work};
use wuzhikar_log::{FlashDriver, MarkedUnits, SlotFlash, SteadyFlash};

const UNIT: usize = 4096;

/// Behind the slots of three pages stand marks.
const SLOTS: u32 = 3 * UNIT as u32;

/// What the next operation of its kind does, in which the power is lost.
#[derive(Clone, Copy, Debug, Default, PartialEq)]
enum Tear {
    #[default]
    Nothing,
    /// A slot reads as it was to be programmed, or as erased.
    Write,
    /// Some bits of the unit are programmed to 0.
    EarlyErase,
    /// The unit reads as erased, and its cells are weak.
    LateErase,
}

/// A chip without error correction, of three pages and their marks.
#[derive(Debug)]
struct Cells {
    bytes: Vec<u8>,
    tear: Tear,
    off: bool,
    /// A slot in doubt, and whether it reads as erased now.
    doubt: Option<u32>,
    reads_erased: bool,
    weak: [bool; 6],
    writes: u32,
    writes_on_weak: u32,
}

impl FlashDriver for Cells {
    type Error = &'static str;
    const READ_SIZE: usize = 1;
    const WRITE_SIZE: usize = 4;
    const ERASE_SIZE: usize = UNIT;

    fn capacity(&self) -> usize {
        self.bytes.len()
    }

    fn read(&mut self, offset: u32, bytes: &mut [u8]) -> Result<(), &'static str> {
        bytes.copy_from_slice(&self.bytes[offset as usize..][..bytes.len()]);
        if self.doubt == Some(offset) && self.reads_erased {
            bytes.fill(0xFF);
        }
        Ok(())
    }

    fn write(&mut self, offset: u32, bytes: &[u8]) -> Result<(), &'static str> {
        if self.off {
            return Err("no power");
        }
        self.bytes[offset as usize..].iter_mut().zip(bytes).for_each(|(cell, byte)| *cell &= byte);
        self.writes += 1;
        self.writes_on_weak += u32::from(self.weak[offset as usize / UNIT]);
        self.doubt = self.doubt.filter(|&doubt| doubt != offset);
        if self.tear == Tear::Write && offset < SLOTS {
            (self.tear, self.off, self.doubt) = (Tear::Nothing, true, Some(offset));
            return Err("torn");
        }
        Ok(())
    }

    fn erase(&mut self, from: u32, to: u32) -> Result<(), &'static str> {
        if self.off {
            return Err("no power");
        }
        let unit = &mut self.bytes[from as usize..to as usize];
        let tear = self.tear;
        if tear == Tear::EarlyErase {
            unit.iter_mut().for_each(|byte| *byte &= 0x0F);
        } else {
            unit.fill(0xFF);
            self.weak[from as usize / UNIT] = tear == Tear::LateErase;
            self.doubt = self.doubt.filter(|doubt| !(from..to).contains(doubt));
        }
        if matches!(tear, Tear::EarlyErase | Tear::LateErase) {
            (self.tear, self.off) = (Tear::Nothing, true);
            return Err("torn");
        }
        Ok(())
    }
}

/// An adapter over the chip.
trait Adapter: NorFlash + Sized {
    /// The chip, where the power was lost inside the start.
    fn start(cells: Cells) -> Result<Self, Cells>;
    fn stop(self) -> Cells;
}

impl Adapter for SlotFlash<Cells> {
    fn start(cells: Cells) -> Result<Self, Cells> {
        Ok(SlotFlash::new(cells, 0, 2).expect("served"))
    }

    fn stop(self) -> Cells {
        self.into_driver()
    }
}

impl Adapter for SteadyFlash<MarkedUnits<Cells>> {
    fn start(cells: Cells) -> Result<Self, Cells> {
        let units = MarkedUnits::new(cells, 0, 2).expect("served");
        SteadyFlash::take_over(units).map_err(|unmounted| unmounted.flash.into_driver())
    }

    fn stop(self) -> Cells {
        self.into_flash().into_driver()
    }
}

type Plain = SlotFlash<Cells>;
type Steady = SteadyFlash<MarkedUnits<Cells>>;

fn blank() -> Cells {
    Cells {
        bytes: vec![0xFF; 6 * UNIT],
        tear: Tear::Nothing,
        off: false,
        doubt: None,
        reads_erased: false,
        weak: [false; 6],
        writes: 0,
        writes_on_weak: 0,
    }
}

/// The keyboard when the power has come back, and behind each start that it is lost in.
fn started<A: Adapter>(mut cells: Cells) -> FlashKeyboard<A> {
    loop {
        cells.off = false;
        match A::start(cells) {
            Ok(flash) => return FlashKeyboard::start(flash).unwrap_or_else(|_| panic!("two pages")),
            Err(cut) => cells = cut,
        }
    }
}

fn stopped<A: Adapter>(keyboard: FlashKeyboard<A>) -> Cells {
    keyboard.into_flash().stop()
}

/// The host sets key 0, and is told whether that is stored.
fn set<A: Adapter>(keyboard: &mut FlashKeyboard<A>, code: u8) -> bool {
    keyboard.setup([0x21, 9, 3, 3, 0, 0, 6, 0]);
    if keyboard.out(&[3, 1, 0, 0, code, 0]) != EpAnswer::Ack {
        return false;
    }
    while keyboard.work() == Work::Working {}
    matches!(keyboard.in_packet(), EpAnswer::Packet(packet) if packet.is_empty())
}

fn key<A: Adapter>(keyboard: &FlashKeyboard<A>) -> u16 {
    let (layer, key) = (LayerNo::read(0).expect("a layer"), KeyNo::read(0).expect("a key"));
    keyboard.keyboard().keymap().get(layer, key).bits()
}

/// A command is torn, is found stored by the next start, and sent again: it "changes nothing", and is confirmed. Then its cells
/// read otherwise.
fn keeps_what_is_sent_again<A: Adapter>() -> bool {
    let mut keyboard = started::<A>(blank());
    assert!(set(&mut keyboard, 6));
    let mut keyboard = started::<A>(Cells { tear: Tear::Write, ..stopped(keyboard) });
    let told = set(&mut keyboard, 5);
    let mut keyboard = if told { keyboard } else { started::<A>(stopped(keyboard)) };
    assert!(set(&mut keyboard, 5));
    key(&started::<A>(Cells { reads_erased: true, ..stopped(keyboard) })) == 5
}

/// The power is lost in that part of an erase which programs to 0; then commands are sent again.
fn serves_behind_an_early_loss<A: Adapter>() -> bool {
    let mut keyboard = started::<A>(blank());
    for number in 0..1600_u32 {
        if number == 1100 {
            keyboard = started::<A>(Cells { tear: Tear::EarlyErase, ..stopped(keyboard) });
        }
        if !set(&mut keyboard, 5 + (number % 2) as u8) {
            keyboard = started::<A>(stopped(keyboard));
        }
    }
    (7..10).all(|code| set(&mut keyboard, code)) && key(&started::<A>(stopped(keyboard))) == 9
}

/// The power is lost at the end of an erase: how many programs then hit cells that were never erased as a whole.
fn programs_on_weak_cells<A: Adapter>() -> u32 {
    let mut keyboard = started::<A>(blank());
    for number in 0..1020_u32 {
        assert!(set(&mut keyboard, 5 + (number % 2) as u8));
    }
    keyboard = started::<A>(Cells { tear: Tear::LateErase, ..stopped(keyboard) });
    for number in 0..340_u32 {
        if !set(&mut keyboard, 7 + (number % 2) as u8) {
            keyboard = started::<A>(stopped(keyboard));
        }
    }
    let cells = stopped(keyboard);
    assert!(cells.tear == Tear::Nothing && cells.writes > 1360);
    cells.writes_on_weak
}

#[test]
fn a_command_that_is_sent_again_stays() {
    assert!(!keeps_what_is_sent_again::<Plain>());
    assert!(keeps_what_is_sent_again::<Steady>());
}

#[test]
fn an_erase_that_was_cut_early_stops_no_keyboard() {
    assert!(!serves_behind_an_early_loss::<Plain>());
    assert!(serves_behind_an_early_loss::<Steady>());
}

#[test]
fn nothing_is_programmed_on_an_erase_that_was_cut_late() {
    assert_ne!(programs_on_weak_cells::<Plain>(), 0);
    assert_eq!(programs_on_weak_cells::<Steady>(), 0);
}
