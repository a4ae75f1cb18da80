//! What the bytes of a flash say, read slot by slot as `docs/formats.md` has it. It shares nothing with the crates.

/// The eight bytes of a word: itself, and its complement.
pub fn good(word: u32) -> [u8; 8] {
    let [a, b, c, d] = word.to_le_bytes();
    [a, b, c, d, !a, !b, !c, !d]
}

pub fn slot(image: &[u8], page: usize, slot: usize) -> [u8; 8] {
    let at = 4096 * page + 8 * slot;
    image[at..at + 8].try_into().expect("eight bytes")
}

pub fn put(image: &mut [u8], page: usize, slot: usize, bytes: [u8; 8]) {
    let at = 4096 * page + 8 * slot;
    image[at..at + 8].copy_from_slice(&bytes);
}

/// The two halves of a slot.
fn halves(image: &[u8], page: usize, at: usize) -> (u32, u32) {
    let [a, b, c, d, e, f, g, h] = slot(image, page, at);
    (u32::from_le_bytes([a, b, c, d]), u32::from_le_bytes([e, f, g, h]))
}

/// The word of a slot, if it stands before its complement.
pub fn word(image: &[u8], page: usize, at: usize) -> Option<u32> {
    let (word, complement) = halves(image, page, at);
    (word == !complement).then_some(word)
}

pub fn pages(image: &[u8]) -> usize {
    image.len() / 4096
}

/// The page whose header has the greatest sequence number, the lowest of equals; that number, and its format.
pub fn newest(image: &[u8]) -> Option<(usize, u32, u32)> {
    let headers = (0..pages(image)).filter_map(|page| Some((page, word(image, page, 0)?)));
    let known = headers.filter(|(_, word)| matches!(word >> 28, 1 | 2));
    let found = known.map(|(page, word)| (page, word & 0x0FFF_FFFF, word >> 28));
    found.max_by_key(|&(page, number, _)| (number, usize::MAX - page))
}

/// The words of the active page, in order.
pub fn words(image: &[u8]) -> Vec<u32> {
    newest(image).map_or(Vec::new(), |(page, ..)| (1..512).filter_map(|at| word(image, page, at)).collect())
}

/// The first slot after all that are not blank on a page.
pub fn tail(image: &[u8], page: usize) -> usize {
    (1..512).rev().find(|&at| slot(image, page, at) != [0xFF; 8]).map_or(1, |at| at + 1)
}

/// The lowest page whose slot 0 has a bit that is clear in both halves.
pub fn unsound(image: &[u8]) -> Option<usize> {
    let sound = |page: &usize| {
        let (word, complement) = halves(image, *page, 0);
        word | complement == u32::MAX
    };
    (0..pages(image)).find(|page| !sound(page))
}

/// The codes of the 384 entries, by rising place.
pub type Table = Vec<u16>;

/// The standard default code of a place.
fn standard_at(place: usize) -> u16 {
    match place {
        0..88 => 4 + place as u16,
        88..96 => 0xE0 + (place as u16 - 88),
        _ => 1,
    }
}

pub fn standard_table() -> Table {
    (0..384).map(standard_at).collect()
}

/// The usages of page 0Ch that format 1 has codes for.
const LISTED: [u16; 16] = [0xB0, 0xB1, 0xB2, 0xB3, 0xB4, 0xB5, 0xB6, 0xB7, 0xB8, 0xCD, 0xE2, 0xE9, 0xEA, 0x192, 0x223, 0x224];

/// The code that a number is on a page of this format.
fn code_in(format: u32, code: u16) -> Option<u16> {
    match code {
        0 | 1 | 4..=0xA4 | 0xE0..=0xE7 | 0x5001..=0x5003 => Some(code),
        0x4000..=0x400F if format == 1 => Some(0x4000 + LISTED[usize::from(code) % 16]),
        0x4001..=0x43FF if format == 2 => Some(code),
        _ => None,
    }
}

/// Changes a table with these defaults by a word of a page of this format, if it is that of a command.
pub fn apply(table: &mut Table, defaults: &[u16], format: u32, word: u32) {
    let [low, high, key, top] = word.to_le_bytes();
    let layer = usize::from(top % 16);
    match top / 16 {
        1 if layer < 4 && key < 96 => {
            if let Some(code) = code_in(format, u16::from_le_bytes([low, high])) {
                table[96 * layer + usize::from(key)] = code;
            }
        }
        2 if layer < 4 && word << 8 == 0 => table[96 * layer..][..96].copy_from_slice(&defaults[96 * layer..][..96]),
        3 if word << 4 == 0 => table.copy_from_slice(defaults),
        _ => {}
    }
}

/// The entries that the words of a flash give, with these defaults.
pub fn table(image: &[u8], defaults: &[u16]) -> Table {
    let mut table = defaults.to_vec();
    if let Some((_, _, format)) = newest(image) {
        words(image).into_iter().for_each(|word| apply(&mut table, defaults, format, word));
    }
    table
}

/// Why a command is refused.
#[derive(Clone, Copy, Debug, PartialEq, Eq)]
pub enum Refusal {
    Unsound,
    Worn,
}

/// How many operations a command takes that makes the one table of the other, or why it is refused.
pub fn operations(image: &[u8], defaults: &[u16], before: &Table, after: &Table) -> Result<usize, Refusal> {
    if unsound(image).is_some() {
        return Err(Refusal::Unsound);
    }
    if before == after {
        return Ok(0);
    }
    let target = match newest(image) {
        Some((page, _, 2)) if tail(image, page) < 512 => return Ok(1),
        Some((_, 0x0FFF_FFFF, _)) => return Err(Refusal::Worn),
        Some((page, ..)) => (page + 1) % pages(image),
        None => 0,
    };
    let is_blank = image[4096 * target..][..4096].iter().all(|&byte| byte == 0xFF);
    let copies = before.iter().zip(defaults).filter(|&(code, default)| code != default).count();
    Ok(usize::from(!is_blank) + copies + 2)
}
