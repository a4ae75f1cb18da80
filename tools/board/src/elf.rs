// SPDX-License-Identifier: MIT OR Apache-2.0
//! The program of a firmware, as a flash holds it.

/// The bytes from address 0 up to the program's end. `None`: the file is no ELF file of a 32-bit chip.
pub fn flash(file: &[u8]) -> Option<Vec<u8>> {
    let half = |at: usize| Some(usize::from(u16::from_le_bytes(file.get(at..at + 2)?.try_into().ok()?)));
    let word = |at: usize| Some(u32::from_le_bytes(file.get(at..at + 4)?.try_into().ok()?) as usize);
    if !file.starts_with(b"\x7fELF\x01\x01") {
        return None;
    }
    let (headers, size, count) = (word(28)?, half(42)?, half(44)?);
    let mut flash = Vec::new();
    for header in (0..count).map(|number| headers + number * size) {
        let [kind, offset, address, length] = [word(header)?, word(header + 4)?, word(header + 12)?, word(header + 16)?];
        // PT_LOAD
        if kind == 1 && length > 0 {
            flash.resize(flash.len().max(address + length), 0xff);
            flash[address..address + length].copy_from_slice(file.get(offset..offset + length)?);
        }
    }
    Some(flash)
}
