// SPDX-License-Identifier: MIT OR Apache-2.0
//! A keyboard and its host: commands that set, and reset, what keys send, and a key that is typed.

use std::marker::PhantomData;

use wuzhikar::{Defaults, EpAnswer, KeyNo, KeyboardOf, LayerNo, Scan, Work};
use wuzhikar_log::NorFlash;

use super::Subject;
use crate::random::Random;
use crate::runner::{Broken, Stage};

const LAYERS: usize = 4;
const KEYS: usize = 96;

/// SET_REPORT of the feature report with a command, and GET_DESCRIPTOR of the report descriptor.
const SET_FEATURE: [u8; 8] = [0x21, 0x09, 0x03, 0x03, 0x00, 0x00, 0x06, 0x00];
const GET_REPORT_DESCRIPTOR: [u8; 8] = [0x81, 0x06, 0x00, 0x22, 0x00, 0x00, 99, 0x00];

/// The most steps of the flash work that a command takes.
const MOST_STEPS: u32 = 387;

/// The code of each entry, layer by layer.
type Keymap = Vec<u16>;

/// What the host was told is stored, and what the command gives that the latest loss of power came into.
pub struct Keyboard<D> {
    stored: Option<Keymap>,
    under_way: Option<Keymap>,
    /// The layout's own codes.
    defaults: Keymap,
    layout: PhantomData<D>,
}

impl<D: Defaults> Keyboard<D> {
    /// A start finds what the host was told is stored, or that with the command that was under way.
    fn starts(&mut self, keyboard: &KeyboardOf<D>) -> Result<(), Broken> {
        let found = keymap(keyboard);
        if self.stored.is_none() {
            self.defaults = found.clone();
        }
        let stored = self.stored.get_or_insert_with(|| found.clone());
        match self.under_way.take() {
            Some(changed) if found == changed => *stored = changed,
            _ if found == *stored => {}
            caught => {
                let wrong = (0..found.len()).find(|&place| found[place] != stored[place]).unwrap_or(0);
                let (is, was, set) = (found[wrong], stored[wrong], caught.map(|keymap| keymap[wrong]));
                return Err(Broken::Lost(format!("entry {wrong} is {is:04x}, and {was:04x} or {set:04x?} was stored")));
            }
        }
        Ok(())
    }

    /// A command: its data packet, and the keymap with it.
    fn draw(&self, random: &mut Random) -> ([u8; 6], Keymap) {
        let keys = if random.below(4) == 0 { KEYS } else { 5 };
        let (layer, key, code) = (random.below(LAYERS), random.below(keys), 4 + random.below(90) as u16);
        let mut keymap = self.stored.clone().expect("a keymap");
        let of_layer = KEYS * layer..KEYS * (layer + 1);
        let operation = match random.below(300) {
            0 => 3,
            1 => 2,
            _ => 1,
        };
        match operation {
            1 => keymap[KEYS * layer + key] = code,
            2 => keymap[of_layer.clone()].copy_from_slice(&self.defaults[of_layer]),
            _ => keymap = self.defaults.clone(),
        }
        let [low, high] = code.to_le_bytes();
        ([3, operation, layer as u8, key as u8, low, high], keymap)
    }

    /// A command, until it is settled or fails, and the host is told.
    fn change<F: NorFlash>(&mut self, keyboard: &mut KeyboardOf<D>, flash: &mut F, stage: &mut Stage) -> Result<(), Broken> {
        let (packet, changed) = self.draw(&mut stage.random);
        let faults = stage.power.faults();
        keyboard.setup(SET_FEATURE);
        if keyboard.out(&packet) != EpAnswer::Ack {
            return Err(Broken::Refused(format!("command {packet:02x?}")));
        }
        let changes = self.stored.as_ref() != Some(&changed);
        let mut work = if changes { Work::Working } else { Work::Settled };
        let mut steps = 0;
        while work == Work::Working {
            if steps == MOST_STEPS {
                return Err(Broken::Wrong(format!("more than {MOST_STEPS} steps")));
            }
            steps += 1;
            work = keyboard.work(flash);
            if stage.power.is_off() {
                self.under_way = Some(changed);
                return Ok(());
            }
        }
        let is_told = matches!(keyboard.in_packet(), EpAnswer::Packet(packet) if packet.is_empty());
        match work {
            Work::Settled if is_told => {
                stage.tally.stored += u64::from(changes);
                self.stored = Some(changed);
            }
            Work::Failed if !is_told && stage.power.faults() > faults => stage.tally.failed += 1,
            work => return Err(Broken::Wrong(format!("a command is {work:?}, and the host is told {is_told}"))),
        }
        Ok(())
    }

    /// The host asks for the descriptor, and a key goes down and up: it reads the key's code.
    fn types(&self, keyboard: &mut KeyboardOf<D>, random: &mut Random) -> Result<(), Broken> {
        let first = random.below(5) as u8;
        let stored = self.stored.as_ref().expect("a keymap");
        let typing = |key: &u8| matches!(stored[usize::from(*key)], 0x04..=0xA4 | 0xE0..=0xE7);
        let key = (first..KEYS as u8).find(typing).ok_or_else(|| Broken::Wrong("no key types".to_string()))?;
        let descriptor = wuzhikar_reader::parse(&fetched(keyboard)).map_err(|fault| Broken::Wrong(format!("{fault:?}")))?;
        let pressed = Scan::NONE.with_key(KeyNo::read(key).expect("a key"), true);
        for scan in [pressed, Scan::NONE] {
            (0..5).for_each(|_| keyboard.scan(scan));
            let report = keyboard.poll().ok_or_else(|| Broken::Wrong("no report".to_string()))?;
            let found = wuzhikar_reader::extract(&descriptor, &report).map_err(|fault| Broken::Wrong(format!("{fault:?}")))?;
            let read = wuzhikar_reader::pressed(&found).expect("memory");
            let wanted = (scan != Scan::NONE).then(|| 0x7_0000 | u32::from(stored[usize::from(key)]));
            if read != wanted.as_slice() {
                return Err(Broken::Wrong(format!("the host reads {read:x?} and not {wanted:x?}")));
            }
        }
        Ok(())
    }
}

/// The codes of all entries.
fn keymap<D: Defaults>(keyboard: &KeyboardOf<D>) -> Keymap {
    let keys = || (0..KEYS as u8).map_while(|key| KeyNo::read(key).ok());
    let layers = (0..LAYERS as u8).map_while(|layer| LayerNo::read(layer).ok());
    layers.flat_map(|layer| keys().map(move |key| keyboard.keymap().get(layer, key).bits())).collect()
}

/// The report descriptor, as a host gets it.
fn fetched<D: Defaults>(keyboard: &mut KeyboardOf<D>) -> Vec<u8> {
    keyboard.setup(GET_REPORT_DESCRIPTOR);
    let mut text = Vec::new();
    while text.len() < 99 {
        let EpAnswer::Packet(packet) = keyboard.in_packet() else { break };
        text.extend(packet);
    }
    let _acknowledged = keyboard.out(&[]);
    text
}

impl<D: Defaults> Subject for Keyboard<D> {
    const NAME: &'static str = "a keyboard";

    fn new(_random: &mut Random) -> Keyboard<D> {
        Keyboard { stored: None, under_way: None, defaults: Keymap::new(), layout: PhantomData }
    }

    fn session<F: NorFlash>(&mut self, mut flash: F, stage: &mut Stage) -> Result<F, Broken> {
        let mut keyboard = KeyboardOf::<D>::on(&flash).expect("2 to 8 pages");
        self.starts(&keyboard)?;
        self.types(&mut keyboard, &mut stage.random)?;
        while !stage.power.is_off() {
            self.change(&mut keyboard, &mut flash, stage)?;
        }
        Ok(flash)
    }
}
