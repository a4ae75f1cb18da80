// SPDX-License-Identifier: MIT OR Apache-2.0
//! What the keymap has to be, and a source of numbers.

pub const LAYERS: usize = 4;
pub const KEYS: usize = 96;

pub type Keymap = [[u16; KEYS]; LAYERS];

/// A command of feature report 3.
#[derive(Clone, Copy, Debug, PartialEq, Eq)]
pub struct Command {
    pub operation: u8,
    pub layer: u8,
    pub key: u8,
    pub code: u16,
}

impl Command {
    pub fn packet(self) -> [u8; 6] {
        let [low, high] = self.code.to_le_bytes();
        [3, self.operation, self.layer, self.key, low, high]
    }
}

/// docs/formats.md, "Codes".
pub fn default_code(layer: usize, key: usize) -> u16 {
    match (layer, key) {
        (0, 0..88) => 4 + key as u16,
        (0, _) => 0xe0 + key as u16 - 88,
        _ => 1,
    }
}

pub fn default_keymap() -> Keymap {
    std::array::from_fn(|layer| std::array::from_fn(|key| default_code(layer, key)))
}

pub fn apply(mut keymap: Keymap, command: Command, defaults: &Keymap) -> Keymap {
    match command.operation {
        1 => keymap[usize::from(command.layer)][usize::from(command.key)] = command.code,
        2 => keymap[usize::from(command.layer)] = defaults[usize::from(command.layer)],
        _ => keymap = *defaults,
    }
    keymap
}

/// How two keymaps differ, with the first entries that do.
pub fn difference(found: &Keymap, wanted: &Keymap, pending: Option<Command>) -> String {
    let all = (0..LAYERS).flat_map(|layer| (0..KEYS).map(move |key| (layer, key)));
    let wrong: Vec<String> = all
        .filter(|(layer, key)| found[*layer][*key] != wanted[*layer][*key])
        .map(|(layer, key)| format!("({layer}, {key}) is {:04x}, was {:04x}", found[layer][key], wanted[layer][key]))
        .collect();
    format!("{} entries differ, {}; under way {pending:x?}", wrong.len(), wrong[..wrong.len().min(3)].join(", "))
}

/// The bytes of a flash whose first page has so many records, made from numbers, and what they mean to a keyboard with these
/// defaults. `every`: the first 384 set each entry, so that a compaction copies all. `used`: the other page was used before, and has
/// to be erased.
pub fn filled(records: usize, every: bool, used: bool, numbers: &mut Numbers, defaults: &Keymap) -> (Vec<u8>, Keymap) {
    let mut keymap = *defaults;
    let mut words = vec![0x2000_0009u32];
    for at in 0..records {
        let mut command = numbers.set();
        if every && at < LAYERS * KEYS {
            (command.layer, command.key, command.code) =
                ((at / KEYS) as u8, (at % KEYS) as u8, 0xa5 - numbers.below(8) as u16 - 1);
        }
        words.push(1 << 28 | u32::from(command.layer) << 24 | u32::from(command.key) << 16 | u32::from(command.code));
        keymap = apply(keymap, command, defaults);
    }
    let mut bytes = Vec::new();
    for word in words {
        bytes.extend(word.to_le_bytes());
        bytes.extend((!word).to_le_bytes());
    }
    bytes.resize(4096, 0xff);
    let mut word = 0x2000_0001;
    for _ in 0..512 {
        bytes.extend(if used { word } else { u32::MAX }.to_le_bytes());
        bytes.extend(if used { !word } else { u32::MAX }.to_le_bytes());
        word = 0x1000_0004 | (numbers.below(96) as u32) << 16;
    }
    (bytes, keymap)
}

/// Numbers from a seed (xorshift).
pub struct Numbers(pub u64);

impl Numbers {
    pub fn new(seed: u64) -> Numbers {
        Numbers(seed.wrapping_mul(0x9e37_79b9_7f4a_7c15) | 1)
    }

    pub fn draw(&mut self) -> u64 {
        self.0 ^= self.0 << 13;
        self.0 ^= self.0 >> 7;
        self.0 ^= self.0 << 17;
        self.0.wrapping_mul(0x2545_f491_4f6c_dd1d) >> 11
    }

    pub fn below(&mut self, end: u64) -> u64 {
        self.draw() % end
    }

    /// A command that sets a key.
    pub fn set(&mut self) -> Command {
        let code = match self.below(4) {
            0 => 0xe0 + self.below(8),
            1 => 0x4001 + self.below(0x3ff),
            _ => 4 + self.below(0xa1),
        };
        Command { operation: 1, layer: self.below(4) as u8, key: self.below(96) as u8, code: code as u16 }
    }

    pub fn command(&mut self) -> Command {
        match self.below(200) {
            0 => Command { operation: 3, layer: 0, key: 0, code: 0 },
            1..4 => Command { operation: 2, layer: self.below(4) as u8, key: 0, code: 0 },
            _ => self.set(),
        }
    }
}
