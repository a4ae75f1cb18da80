//! The device: a keyboard and its flash.
//!
//! A packet's answer is a number: 0 and more are the bytes of a packet in the buffer (an OUT packet that is taken answers 0),
//! -1 is NAK, -100 less the number of the reason a stall, [`REFUSED`] a call that the device has not seen.

use crate::cells::{self, Read};
use crate::flash::Flash;
use crate::memory::Kept;
use crate::{BUFFER, Buffer, REFUSED, written};
use wuzhikar::wuzhikar_log::Log;
use wuzhikar::{EpAnswer, KeyNo, Keyboard, LayerNo, NorFlash, Protocol, Scan, SimFlash, Work};

const NAK: i32 = -1;
const STALL: i32 = -100;

struct Device {
    keyboard: Keyboard,
    flash: Flash,
}

static DEVICE: Kept<Option<Device>> = Kept::new(None);

fn with(act: impl FnOnce(&mut Device, &mut Buffer) -> i32) -> i32 {
    DEVICE.with(|device| match device {
        Some(device) => BUFFER.with(|buffer| act(device, buffer)),
        None => REFUSED,
    })
}

/// A keyboard on so many erased pages, 2 to 8: 0.
#[unsafe(no_mangle)]
pub extern "C" fn start_blank(pages: usize) -> i32 {
    started(SimFlash::blank(pages).ok().map(Flash::Plain))
}

/// A keyboard on the first `length` bytes of the buffer, which are the image of 2 to 8 pages: 0.
#[unsafe(no_mangle)]
pub extern "C" fn start_image(length: usize) -> i32 {
    started(BUFFER.with(|buffer| {
        let image = buffer.get(..length)?;
        SimFlash::from_image(image.to_vec()).ok().map(Flash::Plain)
    }))
}

/// A keyboard on a flash with error correction, whose slots hold the words of the image that is the first `length` bytes of
/// the buffer; a slot that is no word and not free is refused: 0.
#[unsafe(no_mangle)]
pub extern "C" fn start_paired(length: usize) -> i32 {
    started(BUFFER.with(|buffer| Flash::paired(buffer.get(..length)?)))
}

fn started(flash: Option<Flash>) -> i32 {
    let Some(flash) = flash else { return REFUSED };
    let Ok(keyboard) = Keyboard::on(&flash) else { return REFUSED };
    DEVICE.with(|device| *device = Some(Device { keyboard, flash }));
    0
}

/// A SETUP packet: the first eight bytes of the buffer.
#[unsafe(no_mangle)]
pub extern "C" fn setup() -> i32 {
    with(|device, buffer| {
        let [a, b, c, d, e, f, g, h, ..] = *buffer;
        device.keyboard.setup([a, b, c, d, e, f, g, h]);
        0
    })
}

/// An OUT packet of endpoint 0: the first `length` bytes of the buffer, at most 8.
#[unsafe(no_mangle)]
pub extern "C" fn out_packet(length: usize) -> i32 {
    with(|device, buffer| match buffer.get(..length) {
        Some(packet) if length <= 8 => {
            let answer = device.keyboard.out(packet);
            told(&answer, buffer)
        }
        _ => REFUSED,
    })
}

/// An IN token of endpoint 0.
#[unsafe(no_mangle)]
pub extern "C" fn in_packet() -> i32 {
    with(|device, buffer| told(&device.keyboard.in_packet(), buffer))
}

fn told(answer: &EpAnswer, buffer: &mut Buffer) -> i32 {
    match answer {
        EpAnswer::Ack => 0,
        EpAnswer::Nak => NAK,
        EpAnswer::Stall(why) => STALL - i32::from(why.number()),
        EpAnswer::Packet(packet) => written(packet, buffer),
    }
}

/// A poll of endpoint 1: the report's length, or NAK.
#[unsafe(no_mangle)]
pub extern "C" fn poll() -> i32 {
    with(|device, buffer| device.keyboard.poll().map_or(NAK, |report| written(&report, buffer)))
}

/// So many equal scans, a millisecond each: six rows of 16 keys in the buffer, the low byte first.
#[unsafe(no_mangle)]
pub extern "C" fn scan(times: usize) -> i32 {
    with(|device, buffer| {
        let mut rows = [0; 6];
        for (row, bytes) in rows.iter_mut().zip(buffer.chunks_exact(2)) {
            *row = u16::from_le_bytes([bytes[0], bytes[1]]);
        }
        for _ in 0..times {
            device.keyboard.scan(Scan { rows });
        }
        0
    })
}

/// A step of the flash work: 0 idle, 1 working, 2 settled, 3 failed.
#[unsafe(no_mangle)]
pub extern "C" fn work() -> i32 {
    with(|device, _| worked(device.keyboard.work(&mut device.flash)))
}

/// A step whose flash operation is torn by a mask and answers a fault: the first `length` bytes of the buffer, at most 4,096.
#[unsafe(no_mangle)]
pub extern "C" fn work_torn(length: usize) -> i32 {
    work_torn_after(0, length)
}

/// The same, where with error correction `whole` writes of units are made before the torn operation, and none after it.
#[unsafe(no_mangle)]
pub extern "C" fn work_torn_after(whole: u32, length: usize) -> i32 {
    with(|device, buffer| {
        if !buffer.get(..length).is_some_and(|mask| device.flash.tear(whole, mask)) {
            return REFUSED;
        }
        let work = device.keyboard.work(&mut device.flash);
        device.flash.disarm();
        worked(work)
    })
}

fn worked(work: Work) -> i32 {
    match work {
        Work::Idle => 0,
        Work::Working => 1,
        Work::Settled => 2,
        Work::Failed => 3,
    }
}

/// The power goes and comes back: the flash is all that is left.
#[unsafe(no_mangle)]
pub extern "C" fn cut() -> i32 {
    with(|device, _| {
        device.keyboard.restart(&device.flash);
        0
    })
}

/// A bus reset.
#[unsafe(no_mangle)]
pub extern "C" fn bus_reset() -> i32 {
    with(|device, _| {
        device.keyboard.bus_reset();
        0
    })
}

/// The LEDs that the computer set: bits 0 to 4 are Num Lock, Caps Lock, Scroll Lock, Compose and Kana.
#[unsafe(no_mangle)]
pub extern "C" fn leds() -> i32 {
    with(|device, _| device.keyboard.leds().into())
}

/// Whether the keyboard is in boot protocol: 1, or 0.
#[unsafe(no_mangle)]
pub extern "C" fn boot_protocol() -> i32 {
    with(|device, _| i32::from(device.keyboard.protocol() == Protocol::Boot))
}

/// Writes the keymap: the code of each entry, layer by layer and key by key, two bytes each, the low one first. Its length.
#[unsafe(no_mangle)]
pub extern "C" fn keymap() -> i32 {
    with(|device, buffer| {
        let mut codes = buffer.chunks_exact_mut(2);
        let mut length = 0;
        for layer in (0..).map_while(|layer| LayerNo::read(layer).ok()) {
            for key in (0..).map_while(|key| KeyNo::read(key).ok()) {
                let Some(place) = codes.next() else { return REFUSED };
                place.copy_from_slice(&device.keyboard.keymap().get(layer, key).bits().to_le_bytes());
                length += 2;
            }
        }
        length
    })
}

/// Where the flash's bytes stand in memory; with error correction nine for each unit, its check last.
#[unsafe(no_mangle)]
pub extern "C" fn flash() -> *const u8 {
    DEVICE.with(|device| device.as_ref().map_or(core::ptr::null(), |device| device.flash.place().0))
}

/// How many bytes the flash has.
#[unsafe(no_mangle)]
pub extern "C" fn flash_length() -> i32 {
    with(|device, _| device.flash.place().1 as i32)
}

/// How many pages the flash has.
#[unsafe(no_mangle)]
pub extern "C" fn pages() -> i32 {
    with(|device, _| device.flash.pages() as i32)
}

/// Writes what the slots read as, page by page. Their length.
#[unsafe(no_mangle)]
pub extern "C" fn slots() -> i32 {
    with(|device, buffer| written(&device.flash.slots(), buffer))
}

/// Writes a unit of a flash with error correction: its eight bytes and its check, and then the nine as they are corrected.
/// How it reads: 0 blank, 1 a word, 2 corrected, 3 an error.
#[unsafe(no_mangle)]
pub extern "C" fn unit(page: usize, unit: usize) -> i32 {
    with(|device, buffer| {
        let (Flash::Paired(_), Some((cells, read))) = (&device.flash, cells::unit(page, unit)) else { return REFUSED };
        let (number, corrected) = match read {
            Read::Blank => (0, cells),
            Read::Word => (1, cells),
            Read::Corrected(corrected) => (2, corrected),
            Read::Error => (3, cells),
        };
        buffer[..9].copy_from_slice(&cells);
        buffer[9..18].copy_from_slice(&corrected);
        number
    })
}

/// The active page of the log, as the keyboard's own reader finds it, or -1.
#[unsafe(no_mangle)]
pub extern "C" fn active_page() -> i32 {
    with(|device, _| Log::mount(&device.flash).active().map_or(-1, |(page, _)| page as i32))
}

/// The slot that the next record takes, or -1.
#[unsafe(no_mangle)]
pub extern "C" fn tail() -> i32 {
    with(|device, _| Log::mount(&device.flash).tail().map_or(-1, |slot| slot as i32))
}
