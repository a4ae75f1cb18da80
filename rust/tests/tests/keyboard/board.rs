//! A keyboard and its flash, and lines of a session: a call, and behind ` = ` what it answers.
//!
//! ```text
//! setup BYTES           a SETUP packet
//! out BYTES = ack       an OUT packet; or `nak`, `stall NUMBER`
//! in = data BYTES       an IN token; or `nak`, `stall NUMBER`; `-` is the empty packet
//! scans COUNT KEYS      so many equal scans
//! poll = BYTES          the report of a poll, or `nak`
//! work = working        a step of the flash work; or `idle`, `settled`, `failed`
//! cut                   the power is cut
//! usage BYTE = 01       whether a usage of page 07h is held
//! entry LAYER KEY = CODE
//! slot PAGE SLOT = BYTES
//! ```

use wuzhikar::{Defaults, EpAnswer, KeyNo, KeyboardOf, LayerNo, Mask, NorFlash, Scan, SimFlash, Standard, Work};
use wuzhikar_tests::{bytes, expect, hex, images, number, repeated, word};

pub struct BoardOf<D: Defaults> {
    pub keyboard: KeyboardOf<D>,
    pub flash: SimFlash,
}

/// A board with the standard layout.
pub type Board = BoardOf<Standard>;

impl<D: Defaults> BoardOf<D> {
    pub fn on(flash: SimFlash) -> BoardOf<D> {
        BoardOf { keyboard: KeyboardOf::on(&flash).unwrap(), flash }
    }

    pub fn blank(pages: usize) -> BoardOf<D> {
        BoardOf::on(SimFlash::blank(pages).expect("a flash"))
    }

    pub fn rows(&mut self, script: &str) {
        expect(script, |ask| self.take(ask));
    }

    /// The codes of all entries.
    pub fn table(&self) -> images::Table {
        let entry = |place: u16| {
            let (layer, key) = (LayerNo::read((place / 96) as u8), KeyNo::read((place % 96) as u8));
            self.keyboard.keymap().get(layer.expect("a layer"), key.expect("a key")).bits()
        };
        (0..384).map(entry).collect()
    }

    /// A step of the flash work, torn by a mask if there is one.
    pub fn work(&mut self, mask: Option<&[u8]>) -> Work {
        if let Some(mask) = mask {
            self.flash.fault_next(Mask::try_from(mask).expect("a mask"));
        }
        let work = self.keyboard.work(&mut self.flash);
        self.flash.disarm();
        work
    }

    pub fn cut(&mut self) {
        self.keyboard.restart(&self.flash);
    }

    fn take(&mut self, ask: &str) -> String {
        match word(ask) {
            ("setup", packet) => self.keyboard.setup_at(&bytes(packet).try_into().expect("eight bytes")),
            ("out", packet) => return answered(&self.keyboard.out(&repeated(packet))),
            ("in", _) => return answered(&self.keyboard.in_packet()),
            ("scans", rest) => self.scans(rest),
            ("poll", _) => {
                let mut report = [0; 23];
                let length = self.keyboard.poll_into(&mut report);
                return length.map_or("nak".into(), |length| hex(&report[..usize::from(length)]));
            }
            ("work", _) => return format!("{:?}", self.work(None)).to_lowercase(),
            ("cut", _) => self.cut(),
            ("usage", usage) => return hex(&[u8::from(self.keyboard.usages().has_key(bytes(usage)[0]))]),
            ("entry", rest) => {
                let (layer, key) = two(rest);
                return format!("{:04x}", self.table()[96 * layer + key]);
            }
            ("slot", rest) => {
                let (page, slot) = two(rest);
                return hex(&self.flash.read_slot(page, slot));
            }
            _ => panic!("no call: {ask}"),
        }
        String::new()
    }

    fn scans(&mut self, rest: &str) {
        let (count, keys) = word(rest);
        let keys = keys.split_whitespace().map(|key| KeyNo::read(number(key)).expect("a key"));
        let scan = keys.fold(Scan::NONE, |scan, key| scan.with_key(key, true));
        (0..number(count)).for_each(|_: u32| self.keyboard.scan(scan));
    }
}

fn two(rest: &str) -> (usize, usize) {
    let (one, other) = word(rest);
    (number(one), number(other))
}

fn answered(answer: &EpAnswer) -> String {
    match answer {
        EpAnswer::Ack => "ack".into(),
        EpAnswer::Nak => "nak".into(),
        EpAnswer::Stall(why) => format!("stall {}", why.number()),
        EpAnswer::Packet(packet) if packet.is_empty() => "data -".into(),
        EpAnswer::Packet(packet) => format!("data {}", hex(packet)),
    }
}
