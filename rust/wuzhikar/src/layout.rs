//! A board of a maker: the codes that its keys have at first, and which switch of its matrix is which key. Written by hand:
//! tested, not proved.

use crate::parts::debounce::Scan;
use crate::parts::layers::code::ENTRIES;
use crate::parts::layers::{Code, Defaults};

/// How many layers a keymap has.
pub const LAYERS: usize = 4;

/// How many keys a layer has.
pub const KEYS: usize = 96;

/// The codes that a maker gives the keys at first. A reset gives these codes back.
///
/// The numbers are those of `docs/formats.md`, "Codes". One that is no code is an error when a keyboard with the layout is
/// compiled.
///
/// ```
/// # fn main() -> Result<(), Box<dyn core::error::Error>> {
/// # #[cfg(feature = "sim")]
/// # {
/// use wuzhikar::{FlashKeyboard, KEYS, LAYERS, Layout, Scan, SimFlash};
///
/// #[derive(Debug)]
/// struct Pad;
///
/// impl Layout for Pad {
///     const CODES: &'static [[u16; KEYS]; LAYERS] = &{
///         let mut codes = [[0; KEYS]; LAYERS];
///         codes[0][0] = 0x0005; // the letter b
///         codes[0][1] = 0x5001; // layer 1, while it is held
///         codes[1][0] = 0x40E9; // louder
///         codes
///     };
/// }
///
/// let mut keyboard = FlashKeyboard::start_with(SimFlash::blank(2)?, Pad)?;
/// for _ in 0..5 {
///     keyboard.scan(Scan { rows: [0b11, 0, 0, 0, 0, 0] });
/// }
/// # assert!(keyboard.is_first_start());
/// # assert_eq!(keyboard.poll().map(|report| report[2]), Some(0x02));
/// # }
/// # Ok(())
/// # }
/// ```
///
/// The compiler refuses this one, and takes it with 0004h:
///
/// ```compile_fail,E0080
/// # use wuzhikar::{KEYS, KeymapOf, LAYERS, Layout};
/// struct Pad;
///
/// impl Layout for Pad {
///     const CODES: &'static [[u16; KEYS]; LAYERS] = &[[0x0002; KEYS]; LAYERS]; // 0002h is no code
/// }
///
/// let keymap = KeymapOf::<Pad>::standard();
/// ```
///
/// ```
/// # use wuzhikar::{KEYS, KeymapOf, LAYERS, Layout};
/// # struct Pad;
/// #
/// # impl Layout for Pad {
/// const CODES: &'static [[u16; KEYS]; LAYERS] = &[[0x0004; KEYS]; LAYERS];
/// # }
/// #
/// # let keymap = KeymapOf::<Pad>::standard();
/// ```
pub trait Layout {
    /// The code of each key on each layer.
    const CODES: &'static [[u16; KEYS]; LAYERS];
}

/// The codes of a layout, by place.
trait Checked: Layout {
    const TABLE: &'static [Code; ENTRIES] = &checked(Self::CODES);
}

impl<L: Layout> Checked for L {}

impl<L: Layout> Defaults for L {
    fn code_at(place: usize) -> Code {
        L::TABLE[place]
    }

    fn reset(codes: &mut [Code], start: usize, end: usize) {
        codes[start..end].copy_from_slice(&L::TABLE[start..end]);
    }
}

/// These codes by place, 96 times the layer plus the key. A number that is none stops the compiler.
const fn checked(codes: &[[u16; KEYS]; LAYERS]) -> [Code; ENTRIES] {
    let mut table = [Code::NONE; ENTRIES];
    let mut place = 0;
    while place < ENTRIES {
        table[place] = match Code::read(codes[place / KEYS][place % KEYS]) {
            Ok(code) => code,
            Err(_) => refuse(place / KEYS, place % KEYS),
        };
        place += 1;
    }
    table
}

/// Stops the compiler, which says of which key.
const fn refuse(layer: usize, key: usize) -> ! {
    let mut said = *b"layer 0, key 00: the number is no code";
    said[6] += layer as u8;
    said[13] += (key / 10) as u8;
    said[14] += (key % 10) as u8;
    match core::str::from_utf8(&said) {
        Ok(said) => panic!("{}", said),
        Err(_) => panic!("the number is no code"),
    }
}

/// Which switch of a matrix of `R` rows and `C` columns is which key.
///
/// It is made in a `const`, so that a wrong table is an error when it is compiled.
///
/// ```
/// use wuzhikar::Switches;
///
/// const NO: u8 = Switches::<2, 3>::NO_KEY;
/// const SWITCHES: Switches<2, 3> = Switches::new([[0, 1, 2], [NO, 4, 3]]);
///
/// // The switches in row 0, column 0 and in row 1, column 1 are closed.
/// let matrix = [0b001, 0b010];
/// let scan = SWITCHES.scan(|row, column| matrix[row] >> column & 1 != 0);
/// assert_eq!(scan.rows, [0b10001, 0, 0, 0, 0, 0]);
/// ```
///
/// ```compile_fail
/// # use wuzhikar::Switches;
/// const TWICE: Switches<1, 2> = Switches::new([[0, 0]]);
/// # let _ = TWICE;
/// ```
///
/// ```compile_fail
/// # use wuzhikar::Switches;
/// const GAP: Switches<1, 2> = Switches::new([[0, 2]]);
/// # let _ = GAP;
/// ```
#[derive(Clone, Copy, Debug, PartialEq, Eq)]
pub struct Switches<const R: usize, const C: usize> {
    keys: [[u8; C]; R],
}

impl<const R: usize, const C: usize> Switches<R, C> {
    /// The number of a place without a switch.
    pub const NO_KEY: u8 = u8::MAX;

    /// Makes the table from the key of each switch, by row and column: of n switches, at most 96, each number of 0 to
    /// n - 1 once.
    ///
    /// # Panics
    ///
    /// If a number occurs twice, if one below another is missing, or if one is 96 or more. In a `const` the compiler reports
    /// this.
    pub const fn new(keys: [[u8; C]; R]) -> Switches<R, C> {
        let (mut seen, mut count, mut place) = (0_u128, 0, 0);
        while place < R * C {
            let key = keys[place / C][place % C];
            if key != Self::NO_KEY {
                assert!(key < KEYS as u8, "a key has a number of 0 to 95");
                assert!(seen & (1 << key) == 0, "two switches have one key");
                seen |= 1 << key;
                count += 1;
            }
            place += 1;
        }
        assert!(seen == (1 << count) - 1, "a number below that of a key is of no key");
        Switches { keys }
    }

    /// Makes a layer of a [`Layout`] from the code of each switch, by row and column. Keys without a switch do nothing, and
    /// codes at places without a switch are ignored.
    pub const fn layer(&self, codes: [[u16; C]; R]) -> [u16; KEYS] {
        let (mut layer, mut place) = ([0; KEYS], 0);
        while place < R * C {
            let key = self.keys[place / C][place % C];
            if key != Self::NO_KEY {
                layer[key as usize] = codes[place / C][place % C];
            }
            place += 1;
        }
        layer
    }

    /// Returns the scan of a matrix; `is_closed` says of a row and a column whether their switch is closed.
    pub fn scan(&self, is_closed: impl Fn(usize, usize) -> bool) -> Scan {
        let mut rows = [0; 6];
        for (row, keys) in self.keys.iter().enumerate() {
            for (column, key) in keys.iter().enumerate() {
                // For a place without a switch there is no such word.
                if let Some(word) = rows.get_mut(usize::from(key / 16)) {
                    *word |= u16::from(is_closed(row, column)) << (key % 16);
                }
            }
        }
        Scan { rows }
    }
}

#[cfg(test)]
mod tests;
