use super::*;
use crate::{FlashKeyboard, KeyNo, Keymap, LayerNo};
use std::panic::catch_unwind;
use wuzhikar_log::SimFlash;

/// Each kind of code, none of them the standard's at its place.
struct Kinds;

impl Layout for Kinds {
    const CODES: &'static [[u16; KEYS]; LAYERS] = &{
        let kinds = [0x0000, 0x00A4, 0x43FF, 0x5003, 0x4001, 0x00E7, 0x5001];
        let mut codes = [[0; KEYS]; LAYERS];
        let mut place = 0;
        while place < ENTRIES {
            codes[place / KEYS][place % KEYS] = kinds[place % kinds.len()];
            place += 1;
        }
        codes[0][0] = 0x0001;
        codes
    };
}

#[test]
fn a_keyboard_starts_with_the_codes_of_its_layout() {
    let keyboard = FlashKeyboard::start_with(SimFlash::blank(2).expect("memory"), Kinds).expect("2 pages");
    let standard = Keymap::standard();
    for (layer, codes) in Kinds::CODES.iter().enumerate() {
        for (key, code) in codes.iter().enumerate() {
            let (Ok(layer), Ok(key)) = (LayerNo::read(layer as u8), KeyNo::read(key as u8)) else { panic!("an entry") };
            assert_eq!(keyboard.keyboard().keymap().get(layer, key).bits(), *code);
            assert_ne!(standard.get(layer, key).bits(), *code);
        }
    }
    assert!(keyboard.is_first_start());
}

#[test]
fn a_number_that_is_no_code_is_refused() {
    for number in [0x0002, 0x0003, 0x00A5, 0x00DF, 0x00E8, 0x4000, 0x4400, 0x5000, 0x5004, 0xFFFF] {
        let codes = *Kinds::CODES;
        for (layer, key, said) in
            [(3, 95, "layer 3, key 95: the number is no code"), (0, 7, "layer 0, key 07: the number is no code")]
        {
            let mut codes = codes;
            codes[layer][key] = number;
            let refused = catch_unwind(|| checked(&codes)).map_err(|said| said.downcast_ref::<String>().cloned());
            assert_eq!(refused.map(|codes| codes.len()), Err(Some(said.into())), "{number:04x}");
        }
    }
    assert_eq!(checked(Kinds::CODES).map(Code::bits)[..], Kinds::CODES.as_flattened()[..]);
}

#[test]
fn each_switch_is_its_key() {
    const NO: u8 = Switches::<3, 40>::NO_KEY;
    let keys: [[u8; 40]; 3] =
        std::array::from_fn(|row| std::array::from_fn(|column| if row < 2 { (40 * row + column) as u8 } else { NO }));
    let mut keys = keys;
    keys[2][24..].iter_mut().zip(80..).for_each(|(key, number)| *key = number);
    let switches = Switches::new(keys);
    for (row, column) in (0..3).flat_map(|row| (0..40).map(move |column| (row, column))) {
        let scan = switches.scan(|of_row, of_column| (of_row, of_column) == (row, column));
        let down = (0..96).filter(|key| scan.has(*key)).collect::<Vec<_>>();
        assert_eq!(down, Vec::from_iter(Some(keys[row][column]).filter(|key| *key != NO)));
    }
    assert_eq!(switches.scan(|_, _| true), Scan { rows: [u16::MAX; 6] });
    let codes = keys.map(|row| row.map(|key| 0x4000 + u16::from(key)));
    assert_eq!(switches.layer(codes), std::array::from_fn(|key| 0x4000 + key as u16));
}

#[test]
fn a_table_of_switches_with_a_fault_is_refused() {
    const NO: u8 = Switches::<1, 3>::NO_KEY;
    for (keys, sound) in [
        ([0, 1, 2], true),
        ([2, NO, NO], false),
        ([1, NO, 0], true),
        ([0, 2, NO], false),
        ([0, 1, 1], false),
        ([0, 1, 96], false),
    ] {
        assert_eq!(catch_unwind(|| Switches::new([keys])).is_ok(), sound, "{keys:?}");
    }
    assert_eq!(Switches::new([[NO; 3]]).scan(|_, _| true), Scan::NONE);
    assert_eq!(Switches::new([[1, NO, 0]]).layer([[5, 6, 7]])[..3], [7, 5, 0]);
}
