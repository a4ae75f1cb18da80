//! A keyboard that starts in memory beside one that starts by value, over flashes of each kind, in memory that was used
//! before or not, with the standard default codes and with others: every answer, and what is in the flash at the end.

#[path = "../../../tests/src/other.rs"]
mod other;

use super::{UnstartedKeyboard, UnstartedKeyboardOf};
use crate::FlashKeyboard;
use crate::parts::keyboard::{EpAnswer, Keyboard, KeyboardOf, Scan, Work};
use crate::parts::layers::{Defaults, KeyNo, LayerNo, Standard};
use other::Other;
use wuzhikar_log::{FlashFault, NorFlash, PAGE_SLOTS, PageCount};

/// A flash of pages in memory.
#[derive(Clone, Debug, PartialEq)]
struct Cells {
    pages: Vec<[[u8; 8]; PAGE_SLOTS]>,
}

impl Cells {
    fn blank(pages: usize) -> Cells {
        Cells { pages: vec![[[0xff; 8]; PAGE_SLOTS]; pages] }
    }
}

impl NorFlash for Cells {
    fn pages(&self) -> usize {
        self.pages.len()
    }

    fn read_slot(&self, page: usize, slot: usize) -> [u8; 8] {
        self.pages[page][slot]
    }

    fn program_slot(&mut self, page: usize, slot: usize, bytes: [u8; 8]) -> Result<(), FlashFault> {
        for (cell, byte) in self.pages[page][slot].iter_mut().zip(bytes) {
            *cell &= byte;
        }
        Ok(())
    }

    fn erase_page(&mut self, page: usize) -> Result<(), FlashFault> {
        self.pages[page] = [[0xff; 8]; PAGE_SLOTS];
        Ok(())
    }
}

/// Numbers that look random (xorshift).
struct Draw(u32);

impl Draw {
    fn next(&mut self) -> u32 {
        self.0 ^= self.0 << 13;
        self.0 ^= self.0 >> 17;
        self.0 ^= self.0 << 5;
        self.0
    }

    fn below(&mut self, end: u32) -> u32 {
        self.next() % end
    }
}

/// A word beside its complement.
fn slot(word: u32) -> [u8; 8] {
    let ([a, b, c, d], [e, f, g, h]) = (word.to_le_bytes(), (!word).to_le_bytes());
    [a, b, c, d, e, f, g, h]
}

/// A word, more often than not one that a log holds.
fn word(draw: &mut Draw) -> u32 {
    match draw.below(8) {
        0 => 0x2000_0000 | (draw.below(4) << 24),
        1 => 0x3000_0000,
        2 => draw.next(),
        _ => 0x1000_0000 | (draw.below(4) << 24) | (draw.below(96) << 16) | ((draw.below(3) << 14) + 4 + draw.below(160)),
    }
}

/// Pages of a log, of these formats, the first so many slots of each with words, and some slots of them torn.
fn log(draw: &mut Draw, pages: usize, slots: usize, torn: bool) -> Cells {
    let mut cells = Cells::blank(pages);
    for page in &mut cells.pages {
        page[0] = slot(((1 + draw.below(2)) << 28) | draw.below(1000));
        for place in &mut page[1..=slots] {
            *place = slot(word(draw));
            if torn && draw.below(4) == 0 {
                place[draw.below(8) as usize] |= draw.next() as u8;
            }
        }
    }
    if torn && draw.below(2) == 0 {
        cells.pages[0][0][draw.below(8) as usize] ^= 1 << draw.below(8);
    }
    cells
}

/// Pages of bytes of any kind.
fn garbage(draw: &mut Draw) -> Cells {
    let mut cells = Cells::blank(2);
    for byte in cells.pages.iter_mut().flatten().flatten() {
        *byte = draw.next() as u8;
    }
    cells
}

/// A flash of each kind.
fn flashes(draw: &mut Draw) -> Vec<Cells> {
    let few = 1 + draw.below(100) as usize;
    vec![
        Cells::blank(2),
        log(draw, 2, few, false),
        log(draw, 8, PAGE_SLOTS - 1, false),
        log(draw, 3, few, true),
        log(draw, 2, PAGE_SLOTS - 1, true),
        garbage(draw),
    ]
}

/// All that a keyboard shows.
fn shown<D: Defaults>(keyboard: &KeyboardOf<D>) -> Vec<u32> {
    let mut all = vec![u32::from(keyboard.leds()), keyboard.protocol() as u32];
    for layer in 0..4 {
        for key in 0..96 {
            let (Ok(layer), Ok(key)) = (LayerNo::read(layer), KeyNo::read(key)) else { panic!("an entry") };
            all.push(u32::from(keyboard.keymap().get(layer, key).bits()));
        }
    }
    all
}

/// What a call answered.
#[derive(Debug, PartialEq)]
enum Answer {
    Nothing,
    Endpoint0(EpAnswer),
    Report(Option<Vec<u8>>),
    Work(Work),
}

const SETUPS: [[u8; 8]; 8] = [
    [0x21, 9, 3, 3, 0, 0, 6, 0],
    [0x21, 9, 1, 2, 0, 0, 2, 0],
    [0xa1, 1, 1, 1, 0, 0, 23, 0],
    [0xa1, 1, 3, 3, 0, 0, 6, 0],
    [0xa1, 2, 0, 1, 0, 0, 1, 0],
    [0x21, 10, 0, 5, 0, 0, 0, 0],
    [0x21, 11, 0, 0, 0, 0, 0, 0],
    [0xa1, 3, 0, 0, 0, 0, 1, 0],
];

/// A call, by numbers that were drawn for it.
fn call<D: Defaults>(keyboard: &mut KeyboardOf<D>, cells: &mut Cells, [kind, one, two]: [u32; 3]) -> Answer {
    match kind % 8 {
        0 | 1 => {
            let rows = [one as u16 & two as u16 & 0x1111, 0, 0, 0, 0, (one >> 16) as u16 & 0x8000];
            (0..5).for_each(|_| keyboard.scan(Scan { rows }));
            Answer::Nothing
        }
        2 => {
            keyboard.setup(SETUPS[one as usize % 8]);
            Answer::Nothing
        }
        3 => {
            let feature = [3, (one % 4) as u8, (two % 4) as u8, (two >> 8) as u8 % 96, 4 + (two >> 16) as u8 % 100, 0];
            let packet = if one & 0x100 == 0 { &feature[..] } else { &[1, 5][..] };
            Answer::Endpoint0(keyboard.out(packet))
        }
        4 | 5 => Answer::Endpoint0(keyboard.in_packet()),
        6 => Answer::Report(keyboard.poll().map(|report| report.to_vec())),
        _ => Answer::Work(keyboard.work(cells)),
    }
}

/// Makes the same calls on both, each with its own copy of the flash.
fn play<D: Defaults>(draw: &mut Draw, (one, other): (&mut KeyboardOf<D>, &mut KeyboardOf<D>), cells: &Cells) {
    let (mut cells, mut copy) = (cells.clone(), cells.clone());
    assert_eq!(shown(one), shown(other));
    for _ in 0..200 {
        let drawn = [draw.next() >> 8, draw.next(), draw.next()];
        assert_eq!(call(one, &mut cells, drawn), call(other, &mut copy, drawn));
    }
    assert_eq!((shown(one), cells), (shown(other), copy));
}

/// Plays a keyboard that starts in this memory beside one that starts by value.
fn play_both<D: Defaults>(draw: &mut Draw, memory: &mut UnstartedKeyboardOf<D>, cells: &Cells) {
    let (Ok(one), Ok(mut other)) = (memory.start(cells), KeyboardOf::on(cells)) else { panic!("2 to 8 pages") };
    play(draw, (one, &mut other), cells);
}

fn starts_as_a_value_does<D: Defaults>() {
    let mut draw = Draw(0x1234_5678);
    for _ in 0..20 {
        let flashes = flashes(&mut draw);
        for cells in &flashes {
            let mut fresh = UnstartedKeyboardOf::<D>::NEW;
            play_both(&mut draw, &mut fresh, cells);
        }
        let mut used = UnstartedKeyboardOf::<D>::NEW;
        for cells in flashes.iter().chain(flashes.iter().rev()) {
            play_both(&mut draw, &mut used, cells);
        }
    }
}

#[test]
fn memory_starts_as_a_value_does() {
    starts_as_a_value_does::<Standard>();
    starts_as_a_value_does::<Other>();
}

#[test]
fn nothing_of_it_is_shown() {
    assert_eq!(format!("{:?}", UnstartedKeyboard::NEW), "UnstartedKeyboard { .. }");
}

#[test]
fn another_number_of_pages_than_2_to_8_is_refused() {
    let mut memory = UnstartedKeyboard::NEW;
    for pages in [0, 1, 9] {
        let (cells, refused) = (Cells::blank(pages), Some(PageCount { pages }));
        assert_eq!(Keyboard::on(&cells).err(), refused);
        assert_eq!(memory.start(&cells).err(), refused);
        assert_eq!(FlashKeyboard::start(cells).err(), refused);
    }
}
