// Exported from crates/world/src/world.rt by bin/export-rust. Edit that file instead.
//! The keyboard with its host and its flash, and the events that they take.

use crate::parts::world::event::{Answer, Event, Reported};
use crate::parts::world::injector::{Injector, Operation};
use arrayvec::ArrayVec;
use wuzhikar::parts::debounce::Scan;
use wuzhikar_log::parts::flash_model::{Mask, NorFlash, PAGE_SLOTS, SimFlash};
use crate::parts::host::{Host, Reading};
use wuzhikar::parts::keyboard::{EpAnswer, KeyboardOf};
use wuzhikar::parts::keymap_store::Work;
use wuzhikar::parts::layers::{Defaults, KeyNo, LayerNo, Standard};
use crate::rattle::alloc::{AllocError, Global};

/// A keyboard with these defaults on a simulated flash, and a host that reads its reports.
#[derive(Debug)]
pub struct WorldOf<D: Defaults> {
    keyboard: KeyboardOf<D>,
    host: Host,
    injector: Injector,
}

/// A world with the standard defaults.
pub type World = WorldOf<Standard>;

impl<D: Defaults> WorldOf<D> {
    /// Starts a keyboard on a flash, whose keymap it reads, beside a host that keeps no descriptor.
    /// `AllocError` where there was no memory for the reports that wait; the flash is then dropped.
    pub(crate) fn new(alloc: Global, flash: SimFlash) -> Result<WorldOf<D>, AllocError> {
        let keyboard = KeyboardOf::start(alloc, &flash)?;
        Ok(WorldOf {
            keyboard,
            host: Host::new(alloc),
            injector: Injector {
                flash,
                tear: None,
                asked: None,
            },
        })
    }

    /// Returns the flash.
    pub fn flash(&self) -> &SimFlash {
        &self.injector.flash
    }

    /// Takes the flash out of the world: keyboard and host are dropped.
    pub fn into_flash(self) -> SimFlash {
        self.injector.flash
    }

    /// Returns the flash operation that the latest step of the flash work asked for; `None` where it
    /// asked for none.
    pub fn operation(&self) -> Option<Operation> {
        self.injector.asked
    }

    /// Returns the host.
    pub fn host(&self) -> &Host {
        &self.host
    }

    /// Takes the events in order, and appends the answer of each.
    ///
    /// `AllocError` where there was no memory: for an answer, whose event and those after it were then
    /// not taken; or for the host, which drops what it gathers or reads `NoMemory`: that event was
    /// taken, its answer is appended, and those after it were not taken. A keyboard takes no memory
    /// once it is there.
    pub fn run(&mut self, events: &[Event], answers: &mut crate::rattle::Vec<Answer>) -> Result<(), AllocError> {
        self.take_all(events, answers)
    }

    /// Takes the events in order.
    fn take_all(&mut self, events: &[Event], answers: &mut crate::rattle::Vec<Answer>) -> Result<(), AllocError> {
        for event in events {
            // Room comes first: without it the event has not happened.
            answers.reserve_in(1)?;
            let reported = self.step(event);
            answers.push_in(reported.answer)?;
            if reported.refused {
                return Err(AllocError);
            }
        }
        Ok(())
    }

    /// Takes one event.
    fn step(&mut self, event: &Event) -> Reported {
        match event {
            Event::Scan(scan) => self.scan(*scan),
            Event::Setup(bytes) => self.setup(*bytes),
            Event::OutPacket(packet) => self.out_packet(packet),
            Event::InPacket => self.in_packet(),
            Event::Poll => self.poll(),
            Event::Work => self.work(),
            Event::WorkFault(mask) => self.work_fault(mask),
            Event::Cut => self.cut(),
            Event::CutInWork(mask) => self.cut_in_work(mask),
            Event::BusReset => self.bus_reset(),
            Event::Entry(layer, key) => self.entry(*layer, *key),
            Event::SlotAt { page, slot } => self.slot_at(*page, *slot),
            Event::Leds => self.leds(),
        }
    }

    /// The keyboard takes a scan.
    fn scan(&mut self, scan: Scan) -> Reported {
        self.keyboard.scan(scan);
        just(Answer::Done)
    }

    /// A SETUP packet, of which the host knows.
    fn setup(&mut self, packet: [u8; 8]) -> Reported {
        self.keyboard.setup(packet);
        self.host.setup(packet);
        just(Answer::Ack)
    }

    /// An OUT packet.
    fn out_packet(&mut self, packet: &ArrayVec<u8, 8>) -> Reported {
        just(as_answer(self.keyboard.out(packet.as_slice())))
    }

    /// An IN token: a packet of data goes to the host.
    fn in_packet(&mut self) -> Reported {
        let answer = self.keyboard.in_packet();
        let refused = hears(&mut self.host, &answer);
        Reported {
            answer: as_answer(answer),
            refused,
        }
    }

    /// A poll: the host reads the report, in the protocol in force.
    fn poll(&mut self) -> Reported {
        let protocol = self.keyboard.protocol();
        let Some(bytes) = self.keyboard.poll() else {
            return just(Answer::Nak);
        };
        let reading = self.host.read(protocol, bytes.as_slice());
        let refused = is_no_memory(&reading);
        Reported {
            answer: Answer::Sent { bytes, reading },
            refused,
        }
    }

    /// A step of the flash work.
    fn work(&mut self) -> Reported {
        self.injector.asked = None;
        let work = self.keyboard.work(&mut self.injector);
        self.injector.tear = None;
        just(Answer::Worked(work))
    }

    /// A step of the flash work, whose operation the mask tears.
    fn work_fault(&mut self, tear: &Mask) -> Reported {
        self.injector.asked = None;
        self.injector.tear = Some(copy_of(tear));
        let work = self.keyboard.work(&mut self.injector);
        self.injector.tear = None;
        just(Answer::Worked(work))
    }

    /// All RAM of the keyboard is lost, and it starts on its flash.
    fn cut(&mut self) -> Reported {
        start_anew(&mut self.keyboard, &mut self.host, &self.injector.flash)
    }

    /// The same in the middle of a step of the flash work, whose operation the mask tears.
    fn cut_in_work(&mut self, mask: &Mask) -> Reported {
        self.injector.asked = None;
        self.injector.tear = Some(copy_of(mask));
        let _ = self.keyboard.work(&mut self.injector);
        self.injector.tear = None;
        start_anew(&mut self.keyboard, &mut self.host, &self.injector.flash)
    }

    /// A bus reset, of which the host knows.
    fn bus_reset(&mut self) -> Reported {
        self.keyboard.bus_reset();
        self.host.lose();
        just(Answer::Done)
    }

    /// The code of an entry.
    fn entry(&mut self, layer: LayerNo, key: KeyNo) -> Reported {
        just(Answer::EntryIs(self.keyboard.keymap().get(layer, key)))
    }

    /// The bytes of a slot.
    fn slot_at(&mut self, page: u8, slot: u16) -> Reported {
        let pages = self.injector.flash.pages();
        if page as usize >= pages {
            return just(Answer::NoSlot);
        }
        if slot as usize >= PAGE_SLOTS {
            return just(Answer::NoSlot);
        }
        just(Answer::SlotIs(self.injector.flash.read_slot(page as usize, slot as usize)))
    }

    /// The LEDs.
    fn leds(&mut self) -> Reported {
        just(Answer::LedsAre(self.keyboard.leds()))
    }
}

/// The keyboard loses all RAM and starts on its flash, and the host loses the keyboard.
fn start_anew<D: Defaults>(
    keyboard: &mut KeyboardOf<D>,
    host: &mut Host,
    flash: &SimFlash,
) -> Reported {
    keyboard.restart(flash);
    host.lose();
    just(Answer::Restarted)
}

/// The host takes what an IN packet is answered by: a packet of data, for which it may be refused
/// memory.
fn hears(host: &mut Host, answer: &EpAnswer) -> bool {
    match answer {
        EpAnswer::Packet(packet) => host.packet(packet.as_slice()).is_err(),
        EpAnswer::Ack | EpAnswer::Nak | EpAnswer::Stall(_) => false,
    }
}

/// An answer to an event in which the host took no memory.
fn just(answer: Answer) -> Reported {
    Reported {
        answer,
        refused: false,
    }
}

/// The answer of endpoint 0.
fn as_answer(answer: EpAnswer) -> Answer {
    match answer {
        EpAnswer::Ack => Answer::Ack,
        EpAnswer::Nak => Answer::Nak,
        EpAnswer::Packet(packet) => Answer::Packet(packet),
        EpAnswer::Stall(why) => Answer::Stall(why),
    }
}

/// Whether a growth was refused in a reading.
fn is_no_memory(reading: &Reading) -> bool {
    matches!(reading, Reading::NoMemory)
}

/// The same mask once more.
fn copy_of(mask: &Mask) -> Mask {
    let mut copy = Mask::new();
    let _ = copy.try_extend_from_slice(mask.as_slice());
    copy
}

#[allow(unused_imports)]
use crate::rattle::memory::*;
#[allow(unused_imports)]
use wuzhikar::calls::KeyboardCalls as _;
