// Exported from crates/layers/src/held.rt by bin/export-rust. Edit that file instead.
//! The keys that are held, each with the code that it got at its press.

use crate::parts::layers::bits::{contains, insert, next_member, remove};
use crate::parts::layers::code::{KEYS, LAYERS};
use crate::parts::layers::{Code, Defaults, KeyNo, KeymapOf, LayerNo, Usages};

/// How many words of 32 bits hold the keys.
const KEY_WORDS: usize = 3;

/// The code of each key that is held, and what these codes name.
#[derive(Clone, Debug)]
pub struct Held {
    /// The code of a held key is that of its press; of another key any.
    codes: [Code; KEYS],
    /// The keys that are held, as bits.
    held: [u32; KEY_WORDS],
    /// The usages that the codes named when they were named last, and those of the codes since then.
    usages: Usages,
    /// The layers that they activate, likewise.
    active: [bool; LAYERS],
    /// Whether these are the usages and the layers of the codes: no key was released since.
    named: bool,
}

impl Held {
    /// Zeros, where memory waits for a keyboard to start there.
    pub(crate) const UNSTARTED: Self = Held { codes: [Code::UNSTARTED; KEYS], held: [0; KEY_WORDS], usages: Usages::UNSTARTED, active: [false; LAYERS], named: false };
}

impl Held {
    /// No key is held.
    pub fn new() -> Held {
        Held {
            codes: [Code::NONE; KEYS],
            held: [0; KEY_WORDS],
            usages: Usages::none(),
            active: [false; LAYERS],
            named: true,
        }
    }

    /// Leaves what `new` gives: no key is held.
    pub fn clear(&mut self) {
        self.held = [0; KEY_WORDS];
        self.usages.clear();
        self.active = no_layers();
        self.named = true;
    }

    /// Presses a key: its code is that of the keymap on the highest active layer where it is not
    /// transparent, with the layers that were active before; `Code::NONE` where it is transparent
    /// on each. A key that is held stays as it is.
    pub fn press<D: Defaults>(&mut self, keymap: &KeymapOf<D>, key: KeyNo) {
        if !self.holds(key) {
            self.name_usages();
            self.put(keymap, key);
        }
    }

    /// Whether a key is held.
    fn holds(&self, key: KeyNo) -> bool {
        contains(&self.held, u16::from(key.number()))
    }

    /// Gives a key that is not held the code that it has now.
    fn put<D: Defaults>(&mut self, keymap: &KeymapOf<D>, key: KeyNo) {
        let place = key.number();
        let code = resolve(&self.active, keymap, key);
        self.codes[place as usize] = code;
        insert(&mut self.held, u16::from(place));
        self.usages.add(code);
        activate(&mut self.active, code);
    }

    /// Releases a key; one that is not held stays as it is.
    pub fn release(&mut self, key: KeyNo) {
        remove(&mut self.held, u16::from(key.number()));
        self.named = false;
    }

    /// Names what the codes name, where a key was released since they were named: `lent` then has it.
    pub fn name_usages(&mut self) {
        if !self.named {
            self.active = name(&self.codes, &self.held, &mut self.usages);
            self.named = true;
        }
    }

    /// Returns whether a layer is active: layer 0 is, another while a key with its momentary code is
    /// held.
    pub fn active(&self, layer: LayerNo) -> bool {
        if self.named {
            is_active(&self.active, layer)
        } else {
            let (_, active) = self.names();
            is_active(&active, layer)
        }
    }

    /// Returns the code of a key, fixed at its press; None while it is not held.
    pub fn code(&self, key: KeyNo) -> Option<Code> {
        if self.holds(key) {
            Some(self.codes[key.number() as usize])
        } else {
            None
        }
    }

    /// Returns the usages that the codes of the held keys name.
    pub fn usages(&self) -> Usages {
        if self.named {
            self.usages
        } else {
            let (usages, _) = self.names();
            usages
        }
    }

    /// Returns the same usages, lent, where they were named.
    pub(crate) fn lent(&self) -> &Usages {
        &self.usages
    }

    /// The usages that the codes name, and the layers that they activate.
    fn names(&self) -> (Usages, [bool; LAYERS]) {
        let mut usages = Usages::none();
        let active = name(&self.codes, &self.held, &mut usages);
        (usages, active)
    }
}

/// No layer.
fn no_layers() -> [bool; LAYERS] {
    [false; LAYERS]
}

/// The code of a key on the highest active layer where it is not transparent.
fn resolve<D: Defaults>(active: &[bool; LAYERS], keymap: &KeymapOf<D>, key: KeyNo) -> Code {
    for number in (0..layers_to_ask(active)).rev() {
        let code = code_where_active(active, keymap, LayerNo::known(number), key);
        if code != Code::TRANSPARENT {
            return code;
        }
    }
    Code::NONE
}

/// How many layers are to be asked, from layer 0 on: no layer above them is active.
fn layers_to_ask(active: &[bool; LAYERS]) -> u8 {
    if active[1] || active[2] || active[3] {
        4
    } else {
        1
    }
}

/// The code of a key on a layer that is active, transparent on another.
fn code_where_active<D: Defaults>(
    active: &[bool; LAYERS],
    keymap: &KeymapOf<D>,
    layer: LayerNo,
    key: KeyNo,
) -> Code {
    if is_active(active, layer) {
        keymap.get(layer, key)
    } else {
        Code::TRANSPARENT
    }
}

/// Whether a layer is active where these are the layers that held keys activate.
fn is_active(active: &[bool; LAYERS], layer: LayerNo) -> bool {
    layer.number() == 0 || active[layer.number() as usize]
}

/// Adds the layer that a code activates, if it activates one.
fn activate(active: &mut [bool; LAYERS], code: Code) {
    if let Some(layer) = code.layer() {
        active[layer.number() as usize] = true;
    }
}

/// Leaves the usages that the codes of these keys name, and gives the layers that they activate.
fn name(codes: &[Code; KEYS], held: &[u32; KEY_WORDS], usages: &mut Usages) -> [bool; LAYERS] {
    usages.clear();
    let mut active = no_layers();
    let mut from = 0;
    while let Some(key) = next_member(held, from) {
        let code = codes[key as usize];
        usages.add(code);
        activate(&mut active, code);
        from = key + 1;
    }
    active
}
