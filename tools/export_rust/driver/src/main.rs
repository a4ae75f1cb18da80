//! Plays a script of `kbsim` on the exported keyboard and the exported flash in memory, and prints what `kbsim` prints.
//!
//! `driver [other] [--pages N | --image FILE] [--save FILE] < SCRIPT`. With `other` the default codes are those of
//! rust/tests/src/other.rs, and `driver codes` prints them. Scripts are taken to be conforming: a fault ends the program.

use std::io::{Read, Write};
use wuzhikar::{Defaults, EpAnswer, KeyNo, KeyboardOf, LayerNo, Layout, Mask, NorFlash, Scan, SimFlash, Standard, Work};
use wuzhikar_tests::other::Other;

/// SET_REPORT of the feature report.
const SET_FEATURE: [u8; 8] = [0x21, 0x09, 0x03, 0x03, 0x00, 0x00, 0x06, 0x00];

/// GET_DESCRIPTOR of the report descriptor.
const GET_DESCRIPTOR: [u8; 8] = [0x81, 0x06, 0x00, 0x22, 0x00, 0x00, 0xff, 0x00];

struct Device<D: Defaults> {
    keyboard: KeyboardOf<D>,
    flash: SimFlash,
}

fn main() {
    let words: Vec<String> = std::env::args().skip(1).collect();
    match words.first().map(String::as_str) {
        Some("codes") => Other::CODES.as_flattened().iter().for_each(|code| println!("{code:#06x},")),
        Some("other") => play::<Other>(&words[1..]),
        _ => play::<Standard>(&words),
    }
}

/// Plays a script on a keyboard with these defaults, by the words of the options.
fn play<D: Defaults>(words: &[String]) {
    let (mut flash, mut saved) = (SimFlash::blank(2), None);
    for pair in words.chunks_exact(2) {
        match pair[0].as_str() {
            "--pages" => flash = SimFlash::blank(number(&pair[1])),
            "--image" => flash = SimFlash::from_image(std::fs::read(&pair[1]).expect("an image")),
            "--save" => saved = Some(&pair[1]),
            word => panic!("{word}"),
        }
    }
    let flash = flash.expect("2 to 8 pages");
    let keyboard = KeyboardOf::on(&flash).expect("2 to 8 pages");
    let mut device = Device::<D> { keyboard, flash };
    let mut script = String::new();
    std::io::stdin().read_to_string(&mut script).expect("a script");
    let mut told = String::new();
    for (number, line) in script.lines().enumerate().filter(|(_, line)| !line.starts_with('#')) {
        let words: Vec<&str> = line.split_whitespace().collect();
        if let [word, rest @ ..] = words.as_slice() {
            told += &format!("{} {}\n", number + 1, device.told(word, rest));
        }
    }
    std::io::stdout().write_all(told.as_bytes()).expect("an output");
    if let Some(saved) = saved {
        std::fs::write(saved, device.flash.image()).expect("an image");
    }
}

impl<D: Defaults> Device<D> {
    /// What is printed of a line.
    fn told(&mut self, word: &str, rest: &[&str]) -> String {
        match word {
            "scan" => self.scans(1, rest),
            "scans" => self.scans(number(rest[0]), &rest[1..]),
            "poll" => self.poll(),
            "setup" => self.setup(hex(rest[0]).try_into().expect("eight bytes")),
            "out" => shown(&self.keyboard.out(&rest.first().map_or(Vec::new(), |bytes| hex(bytes)))),
            "in" => shown(&self.keyboard.in_packet()),
            "work" => worked(self.keyboard.work(&mut self.flash)),
            "workfault" => self.work_torn(rest[0]),
            "cut" => self.restart(),
            "cutwork" => {
                self.work_torn(rest[0]);
                self.restart()
            }
            "entry" => self.entry(number(rest[0]) as u8, number(rest[1]) as u8),
            "reset" => {
                self.keyboard.bus_reset();
                "ok".to_string()
            }
            "leds" => in_hex(&[self.keyboard.leds()]),
            "fetch" => self.fetch(),
            "slot" => in_hex(&self.flash.read_slot(number(rest[0]), number(rest[1]))),
            "set" => self.set(number(rest[0]) as u8, number(rest[1]) as u8, &hex(rest[2])),
            _ => panic!("{word}"),
        }
    }

    fn scans(&mut self, times: usize, keys: &[&str]) -> String {
        let mut scan = Scan::NONE;
        for key in keys {
            scan = scan.with_key(KeyNo::read(number(key) as u8).expect("a key"), true);
        }
        for _ in 0..times {
            self.keyboard.scan(scan);
        }
        "ok".to_string()
    }

    fn poll(&mut self) -> String {
        match self.keyboard.poll() {
            Some(report) => format!("report {} unread", in_hex(&report)),
            None => "nak".to_string(),
        }
    }

    fn setup(&mut self, packet: [u8; 8]) -> String {
        self.keyboard.setup(packet);
        "ack".to_string()
    }

    /// A step of the flash work whose operation is torn by a mask, where there is one.
    fn work_torn(&mut self, mask: &str) -> String {
        let mask = if mask == "-" { Vec::new() } else { hex(mask) };
        self.flash.fault_next(Mask::try_from(mask.as_slice()).expect("a mask"));
        let work = self.keyboard.work(&mut self.flash);
        self.flash.disarm();
        worked(work)
    }

    fn restart(&mut self) -> String {
        self.keyboard.restart(&self.flash);
        "restart".to_string()
    }

    fn entry(&self, layer: u8, key: u8) -> String {
        let (layer, key) = (LayerNo::read(layer).expect("a layer"), KeyNo::read(key).expect("a key"));
        format!("{:04x}", self.keyboard.keymap().get(layer, key).bits())
    }

    /// A whole transfer of the report descriptor.
    fn fetch(&mut self) -> String {
        self.keyboard.setup(GET_DESCRIPTOR);
        let mut total = 0;
        loop {
            match self.keyboard.in_packet() {
                EpAnswer::Packet(packet) => {
                    total += packet.len();
                    if packet.len() < 8 {
                        break;
                    }
                }
                answer => return shown(&answer),
            }
        }
        match self.keyboard.out(&[]) {
            EpAnswer::Ack => format!("fetched {total}"),
            answer => shown(&answer),
        }
    }

    /// A whole feature transfer that sets an entry.
    fn set(&mut self, layer: u8, key: u8, code: &[u8]) -> String {
        self.keyboard.setup(SET_FEATURE);
        let answer = self.keyboard.out(&[3, 1, layer, key, code[1], code[0]]);
        if answer != EpAnswer::Ack {
            return shown(&answer);
        }
        while self.keyboard.work(&mut self.flash) == Work::Working {}
        match self.keyboard.in_packet() {
            EpAnswer::Packet(packet) if packet.is_empty() => "ack".to_string(),
            answer => shown(&answer),
        }
    }
}

fn shown(answer: &EpAnswer) -> String {
    match answer {
        EpAnswer::Ack => "ack".to_string(),
        EpAnswer::Nak => "nak".to_string(),
        EpAnswer::Stall(why) => format!("stall {}", why.number()),
        EpAnswer::Packet(packet) if packet.is_empty() => "data -".to_string(),
        EpAnswer::Packet(packet) => format!("data {}", in_hex(packet)),
    }
}

fn worked(work: Work) -> String {
    let word = match work {
        Work::Idle => "idle",
        Work::Working => "working",
        Work::Settled => "settled",
        Work::Failed => "failed",
    };
    word.to_string()
}

fn number(word: &str) -> usize {
    word.parse().expect("a number")
}

fn hex(word: &str) -> Vec<u8> {
    let digit = |at| u8::from_str_radix(&word[at..at + 2], 16).expect("hex");
    (0..word.len()).step_by(2).map(digit).collect()
}

fn in_hex(bytes: &[u8]) -> String {
    bytes.iter().map(|byte| format!("{byte:02x}")).collect()
}
