// Exported from crates/layers/src/keymap.rt by bin/export-rust. Edit that file instead.
//! The table of codes.

use crate::parts::layers::code::{ENTRIES, KEYS};
use crate::parts::layers::defaults::PhantomData;
use crate::parts::layers::{Code, Command, Defaults, KeyNo, LayerNo, Standard};

/// The code of each key on each layer, with these defaults.
///
/// ```rust
/// use wuzhikar::{KeyNo, Keymap, LayerNo};
///
/// let keymap = Keymap::standard();
/// // Key 0 of layer 0 is usage 04h, the letter A.
/// assert_eq!(keymap.get(LayerNo::read(0)?, KeyNo::read(0)?).bits(), 0x0004);
/// assert!(KeyNo::read(96).is_err());
/// # Ok::<(), wuzhikar::KeymapError>(())
/// ```
#[derive(Clone, Debug)]
pub struct KeymapOf<D: Defaults> {
    codes: [Code; ENTRIES],
    defaults: PhantomData<D>,
}

impl<D: Defaults> KeymapOf<D> {
    /// Zeros, where memory waits for a keyboard to start there.
    pub(crate) const UNSTARTED: Self = KeymapOf { codes: [Code::UNSTARTED; ENTRIES], defaults: PhantomData };
}

/// A keymap with the standard defaults.
pub type Keymap = KeymapOf<Standard>;

impl<D: Defaults> KeymapOf<D> {
    /// Returns the default keymap.
    pub fn standard() -> KeymapOf<D> {
        let mut keymap = KeymapOf {
            codes: [Code::TRANSPARENT; ENTRIES],
            defaults: PhantomData,
        };
        keymap.set_standard();
        keymap
    }

    /// Makes it the default keymap, where it lies.
    pub fn set_standard(&mut self) {
        D::reset(&mut self.codes, 0, ENTRIES);
    }

    /// Returns the code of a key on a layer.
    pub fn get(&self, layer: LayerNo, key: KeyNo) -> Code {
        self.codes[place(layer, key)]
    }

    /// Takes a command: the entries that it writes get their codes, the others stay.
    #[inline(always)]
    pub fn apply(&mut self, command: Command) {
        match command {
            Command::SetKey { layer, key, code } => self.codes[place(layer, key)] = code,
            Command::ResetLayer(layer) => {
                let first = KEYS * layer.number() as usize;
                D::reset(&mut self.codes, first, first + KEYS);
            }
            Command::ResetAll => D::reset(&mut self.codes, 0, ENTRIES),
        }
    }

    /// Returns whether some entry would differ after the command.
    pub fn changes(&self, command: Command) -> bool {
        match command {
            Command::SetKey { layer, key, code } => self.codes[place(layer, key)] != code,
            Command::ResetLayer(layer) => {
                let first = KEYS * layer.number() as usize;
                differs::<D>(&self.codes, first, first + KEYS)
            }
            Command::ResetAll => differs::<D>(&self.codes, 0, ENTRIES),
        }
    }

    /// Returns the first place at or after `from` whose entry differs from the default, with the
    /// command that sets that entry; a place is 96 times the layer plus the key.
    pub fn next_changed(&self, from: u16) -> Option<(u16, Command)> {
        for place in from..ENTRIES as u16 {
            let code = self.codes[place as usize];
            if code != D::code_at(place as usize) {
                return Some((place, set_key_at(place, code)));
            }
        }
        None
    }
}

impl<D: Defaults> PartialEq for KeymapOf<D> {
    fn eq(&self, other: &KeymapOf<D>) -> bool {
        self.codes == other.codes
    }
}

impl<D: Defaults> Eq for KeymapOf<D> {
}

/// The command that gives the entry at a place this code.
fn set_key_at(place: u16, code: Code) -> Command {
    Command::SetKey {
        layer: LayerNo::of_place(place),
        key: KeyNo::of_place(place),
        code,
    }
}

/// Where the entry of a key on a layer stands.
fn place(layer: LayerNo, key: KeyNo) -> usize {
    KEYS * layer.number() as usize + key.number() as usize
}

/// Whether some entry from `start` up to `end` is not its default code.
fn differs<D: Defaults>(codes: &[Code], start: usize, end: usize) -> bool {
    for place in start..end {
        if codes[place] != D::code_at(place) {
            return true;
        }
    }
    false
}
