// SPDX-License-Identifier: MIT OR Apache-2.0
//! The host's side: control transfers packet by packet, scans and polls.

use crate::chip::{Chip, Frame, Lost};
use crate::model::{Command, KEYS, Keymap, LAYERS};

pub type Answer<T> = Result<T, Lost>;

/// So often a host asks again that is told to wait. A compaction takes a few thousand operations at most.
const ASKED: usize = 100_000;

/// Asks until the answer is another than a wait.
fn asked(chip: &mut Chip, request: &[u8]) -> Answer<Frame> {
    for _ in 0..ASKED {
        let frame = chip.ask(request)?;
        if frame.kind != b'N' {
            return Ok(frame);
        }
    }
    Err(Lost::Dead(format!("SILENT: told to wait {ASKED} times for an answer to {request:02x?}")))
}

/// A control transfer that was not stalled: what was read. `None`: it was stalled.
pub fn control(chip: &mut Chip, setup: [u8; 8], data: &[u8]) -> Answer<Option<Vec<u8>>> {
    chip.ask(&[b"s", &setup[..]].concat())?;
    let wanted = usize::from(u16::from_le_bytes([setup[6], setup[7]]));
    if setup[0] & 0x80 != 0 && wanted > 0 {
        let mut read = Vec::new();
        loop {
            let Some(packet) = in_packet(chip)? else { return Ok(None) };
            let short = packet.len() < 8;
            read.extend(packet);
            if short || read.len() >= wanted {
                break;
            }
        }
        return Ok(out(chip, &[])?.then_some(read));
    }
    for packet in data.chunks(8) {
        if !out(chip, packet)? {
            return Ok(None);
        }
    }
    in_packet(chip)
}

fn in_packet(chip: &mut Chip) -> Answer<Option<Vec<u8>>> {
    let frame = asked(chip, b"i")?;
    Ok((frame.kind == b'D').then_some(frame.bytes))
}

/// The request of an OUT packet.
pub fn out_request(packet: &[u8]) -> [u8; 10] {
    let mut request = [0; 10];
    (request[0], request[1]) = (b'o', packet.len() as u8);
    request[2..2 + packet.len()].copy_from_slice(packet);
    request
}

/// Whether an OUT packet was taken; if not it was stalled.
fn out(chip: &mut Chip, packet: &[u8]) -> Answer<bool> {
    Ok(asked(chip, &out_request(packet))?.kind == b'A')
}

const GET_DEVICE: [u8; 8] = [0x80, 6, 0, 1, 0, 0, 18, 0];
const SET_FEATURE: [u8; 8] = [0x21, 9, 3, 3, 0, 0, 6, 0];

/// Reads string 2, the product's name (USB 2.0 section 9.6.7).
pub fn name(chip: &mut Chip) -> Answer<()> {
    match control(chip, [0x80, 6, 2, 3, 0x09, 0x04, 255, 0], &[])? {
        Some(name) if name.len() > 8 && usize::from(name[0]) == name.len() => Ok(()),
        name => Err(Lost::Dead(format!("WRONG: {name:02x?} in place of a name"))),
    }
}

/// Sends a command, and returns whether it was confirmed; if not, it was refused.
pub fn command(chip: &mut Chip, command: Command) -> Answer<bool> {
    match control(chip, SET_FEATURE, &command.packet())? {
        Some(status) if !status.is_empty() => Err(Lost::Dead(format!("WRONG: {status:02x?} in place of a status packet"))),
        status => Ok(status.is_some()),
    }
}

/// Sends an IN token in place of the data of a write that the host began in a read: what a controller with buffers has after SETUP.
pub fn token_after_setup(chip: &mut Chip) -> Answer<Frame> {
    chip.ask(&[b"s", &GET_DEVICE[..]].concat())?;
    chip.ask(&[b"s", &SET_FEATURE[..]].concat())?;
    chip.ask(b"i")
}

/// Sends a command in the middle of a read; the first token after the chip's work has to confirm it.
pub fn command_in_a_read(chip: &mut Chip, command: Command) -> Answer<bool> {
    chip.ask(&[b"s", &GET_DEVICE[..]].concat())?;
    chip.ask(&[b"s", &SET_FEATURE[..]].concat())?;
    out(chip, &command.packet())?;
    chip.rests()?;
    let frame = chip.ask(b"i")?;
    if frame.kind == b'N' {
        return Err(Lost::Dead("LATE: the chip sleeps, and tells the host to wait".to_string()));
    }
    Ok(frame.kind == b'D' && frame.bytes.is_empty())
}

pub fn scan(chip: &mut Chip, keys: &[u8]) -> Answer<Frame> {
    let mut rows = [0u16; 6];
    keys.iter().for_each(|key| rows[usize::from(key / 16)] |= 1 << (key % 16));
    let bytes: Vec<u8> = rows.iter().flat_map(|row| row.to_le_bytes()).collect();
    chip.ask(&[b"m", &bytes[..]].concat())
}

/// Reads the report that is due, from its packets of 16 bytes.
pub fn poll(chip: &mut Chip) -> Answer<Vec<u8>> {
    let mut report = Vec::new();
    loop {
        let frame = chip.ask(b"p")?;
        report.extend(&frame.bytes);
        if frame.kind != b'D' || frame.bytes.len() < 16 {
            return Ok(report);
        }
    }
}

/// The start of the chip, and its UART.
pub fn start(chip: &mut Chip) -> Answer<()> {
    let first = chip.frame()?;
    if first.kind != b'B' {
        return Err(Lost::Dead(format!("{first:?} in place of a start")));
    }
    chip.begin().map(drop)
}

/// A key of layer 0 is pressed and released; each report has to be that of its code. Nothing is pressed where that is no usage of
/// the keyboard page. Whether it was.
pub fn press(chip: &mut Chip, keymap: &Keymap, key: u8) -> Answer<bool> {
    let code = keymap[0][usize::from(key)];
    let bit = match code {
        0x04..=0xa4 => 8 + code - 4,
        0xe0..=0xe7 => code - 0xe0,
        _ => return Ok(false),
    };
    for down in [true, false] {
        for _ in 0..5 {
            scan(chip, if down { std::slice::from_ref(&key) } else { &[] })?;
        }
        let mut wanted = [0; 23];
        wanted[0] = 1;
        if down {
            wanted[1 + usize::from(bit / 8)] |= 1 << (bit % 8);
        }
        let report = poll(chip)?;
        if report != wanted {
            return Err(Lost::Dead(format!("WRONG report for key {key} of code {code:04x}: {report:02x?}")));
        }
    }
    Ok(true)
}

/// Reset, address, configuration.
pub fn enumerate(chip: &mut Chip) -> Answer<()> {
    chip.ask(b"r")?;
    control(chip, [0, 5, 9, 0, 0, 0, 0, 0], &[])?;
    control(chip, [0, 9, 1, 0, 0, 0, 0, 0], &[])?;
    Ok(())
}

/// The keymap in the chip's RAM.
pub fn keymap(chip: &mut Chip) -> Answer<Keymap> {
    let mut keymap = [[0; KEYS]; LAYERS];
    for (layer, keys) in keymap.iter_mut().enumerate() {
        let bytes = chip.ask(&[b'd', layer as u8])?.bytes;
        for (code, two) in keys.iter_mut().zip(bytes.chunks_exact(2)) {
            *code = u16::from_le_bytes([two[0], two[1]]);
        }
    }
    Ok(keymap)
}

/// An entry as a driver on a host reads it: selected by one transfer, read by another.
pub fn entry(chip: &mut Chip, layer: u8, key: u8) -> Answer<Option<u16>> {
    control(chip, SET_FEATURE, &[3, 0, layer, key, 0, 0])?;
    let read = control(chip, [0xa1, 1, 3, 3, 0, 0, 6, 0], &[])?;
    Ok(match read.as_deref() {
        Some([3, 0, l, k, low, high]) if (*l, *k) == (layer, key) => Some(u16::from_le_bytes([*low, *high])),
        _ => None,
    })
}
