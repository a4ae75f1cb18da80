//! The driver over registers that are played, as the manual has them: at any access something may come on the bus, after which
//! the interrupt of a reset runs.

use super::*;
use std::cell::RefCell;
use std::collections::VecDeque;
use wuzhikar::{SimFlash, Standard};
use wuzhikar_device::testing::{self, Answer, Cells, Firmware, UsbOf, Wire};
use wuzhikar_device::{Identity, PacketSize, Product};

/// What an IN endpoint has.
#[derive(Debug, Default)]
struct Sends {
    control: u32,
    met: u32,
    size: u32,
    fifo: Vec<u8>,
    toggle: bool,
}

impl Sends {
    fn write(&mut self, place: usize, word: u32, kept: u32) {
        match place {
            0 => {
                self.control = Played::written(self.control, word, kept);
                self.toggle &= word & DATA0 == 0;
            }
            MET => self.met &= !word,
            SIZE => self.size = word,
            _ => panic!("{place:x}"),
        }
    }
}

#[derive(Debug, Default)]
struct Played {
    ends: [Sends; 2],
    /// Of OUT of endpoint 0.
    control: u32,
    size: u32,
    toggle: bool,
    /// What was received: words of RECEIVED, each with its bytes.
    received: VecDeque<(u32, Vec<u8>)>,
    /// The words of the packet that is read.
    reading: VecDeque<u32>,
    status: u32,
    mask: u32,
    configuration: u32,
    device_control: u32,
    is_suspended: bool,
    address: u8,
    woken: Option<u32>,
    /// A SETUP packet came since the driver looked, and how many accesses ago it looked.
    is_unseen: bool,
    since: usize,
}

impl Played {
    fn comes(&mut self, kind: u32, bytes: &[u8]) {
        self.received.push_back((kind << 17 | (bytes.len() as u32) << 4, bytes.to_vec()));
    }

    /// What a write of an endpoint's control leaves of it, which keeps STALL where that is endpoint 0.
    fn written(old: u32, word: u32, kept: u32) -> u32 {
        let mut new = word & !(ONCE | NAKS) | old & (NAKS | ENABLE | kept);
        if word & CLEAR_NAK != 0 {
            new &= !NAKS;
        }
        if word & SET_NAK != 0 {
            new |= NAKS;
        }
        if word & ENABLE != 0 {
            new |= ENABLE;
        }
        if word & DISABLE != 0 {
            assert!(old & (ENABLE | NAKS) != ENABLE, "an endpoint that answers is disabled");
            new &= !ENABLE;
        }
        new
    }

    /// In the moment that the driver can't tell, which its head names, the stall is left out.
    fn without_late_stall(&self, place: usize, word: u32) -> u32 {
        let sets = (place == IN[0] || place == OUT_0) && word & STALL != 0;
        assert!(!sets || self.since <= 2, "endpoint 0 is stalled {} accesses behind a look", self.since);
        if sets && self.is_unseen { word & !STALL } else { word }
    }

    fn asks(&self) -> bool {
        self.status & self.mask & RESET != 0
    }
}

impl Wire for Played {
    /// It is taken where SIZE has room for one. Both directions are NAKed from then on, and not stalled.
    fn setup(&mut self, packet: [u8; 8]) -> bool {
        if self.size & SETUPS == 0 {
            return false;
        }
        self.comes(SETUP_DATA, &packet);
        self.comes(4, &[]);
        self.ends[0].control = self.ends[0].control & !STALL | NAKS;
        self.control = self.control & !(STALL | ENABLE) | NAKS;
        (self.ends[0].toggle, self.toggle, self.is_unseen) = (true, true, true);
        true
    }

    /// A packet with the other toggle is acknowledged, and dropped.
    fn out(&mut self, toggle: bool, packet: &[u8]) -> Answer {
        match self.control {
            control if control & STALL != 0 => Answer::Stall,
            control if control & (ENABLE | NAKS) == ENABLE => {
                if toggle == self.toggle {
                    assert_eq!(self.size, SETUPS | ONE | 8);
                    self.comes(OUT_DATA, packet);
                    self.comes(3, &[]);
                    self.control = control & !ENABLE | NAKS;
                    self.toggle = !toggle;
                }
                Answer::Ack
            }
            _ => Answer::Nak,
        }
    }

    fn input(&mut self, endpoint: usize) -> Answer {
        let end = &self.ends[endpoint];
        let length = (end.size & 0x7f) as usize;
        match end.control {
            control if endpoint == 1 && control & ACTIVE == 0 => Answer::Nothing,
            control if control & STALL != 0 => Answer::Stall,
            control if control & (ENABLE | NAKS) == ENABLE && end.fifo.len() >= length => {
                Answer::Packet(end.toggle, end.fifo[..length].to_vec())
            }
            _ => Answer::Nak,
        }
    }

    fn acknowledged(&mut self, endpoint: usize) {
        let end = &mut self.ends[endpoint];
        end.fifo.drain(..((end.size & 0x7f) as usize).next_multiple_of(4));
        end.control &= !ENABLE;
        end.met |= DONE;
        end.toggle = !end.toggle;
        if endpoint == 0 {
            self.address = (self.configuration >> 4 & 0x7f) as u8;
        }
    }

    /// Endpoint 1 is off, and SIZE is 0; all else the driver does.
    fn reset(&mut self) {
        self.resume();
        self.size = 0;
        self.ends[1].control &= !(ACTIVE | ENABLE);
        self.status |= RESET | WAS_RESET;
    }

    fn suspend(&mut self) {
        self.status |= SUSPENDED;
        self.is_suspended = true;
    }

    fn resume(&mut self) {
        if self.is_suspended {
            self.status |= RESUMED;
        }
        self.is_suspended = false;
    }

    fn address(&self) -> u8 {
        self.address
    }

    fn wakes(&mut self) -> bool {
        self.woken.take_if(|_| self.device_control & WAKE == 0).is_some_and(|time| (1..=15).contains(&time))
    }
}

/// The registers beside the host, whom the interrupt follows.
type Wired = testing::Wired<Played>;

fn access(wire: &Wired) {
    wire.borrow_mut().access();
    wire.borrow_mut().registers.since += 1;
    interrupts_run(wire);
}

fn interrupts_run(wire: &Wired) {
    let runs = !wire.borrow().is_masked() && wire.borrow().registers.asks();
    if runs {
        wire.borrow_mut().begin_handler();
        interrupt(&wire);
        wire.borrow_mut().interrupts(true);
    }
}

impl Registers for &Wired {
    fn read(&self, place: usize) -> u32 {
        access(self);
        let played = &mut self.borrow_mut().registers;
        match place {
            STATUS => {
                (played.is_unseen, played.since) = (false, 0);
                played.status | if played.received.is_empty() { 0 } else { RX_WAITS }
            }
            RECEIVED => {
                assert!(played.reading.is_empty(), "a packet is left in the FIFO");
                let (told, bytes) = played.received.pop_front().expect("a packet");
                let word = |part: &[u8]| part.iter().rev().fold(0, |word, byte| word << 8 | u32::from(*byte));
                played.reading = bytes.chunks(4).map(word).collect();
                told
            }
            DEVICE_STATUS => played.is_suspended.into(),
            OUT_0 => played.control,
            FLUSH => 0,
            _ if place == FIFO[0] => played.reading.pop_front().expect("a word"),
            _ => {
                let end = &played.ends[usize::from(place >= IN[1])];
                match place & 0x1f {
                    0 => end.control,
                    MET => end.met,
                    _ => panic!("{place:x}"),
                }
            }
        }
    }

    fn write(&self, place: usize, word: u32) {
        access(self);
        let played = &mut self.borrow_mut().registers;
        let word = played.without_late_stall(place, word);
        match place {
            STATUS => played.status &= !word,
            MASK => played.mask = word,
            CONTROL => played.device_control = word,
            CONFIGURATION => {
                played.configuration = word;
                if word >> 4 & 0x7f == 0 {
                    played.address = 0;
                }
            }
            FLUSH if word & RX_FLUSH != 0 => {
                played.received.clear();
                played.reading.clear();
            }
            FLUSH => {
                let end = &mut played.ends[(word >> 6 & 1) as usize];
                assert!(end.control & ENABLE == 0, "a FIFO in use is flushed");
                end.fifo.clear();
            }
            OUT_0 => played.control = Played::written(played.control, word, STALL),
            _ if place == OUT_0 + SIZE => played.size = word,
            AHB | RX_SIZE => {}
            _ if TX_SIZE.contains(&place) => {}
            _ if FIFO.contains(&place) => played.ends[usize::from(place == FIFO[1])].fifo.extend(word.to_le_bytes()),
            _ => {
                let endpoint = usize::from(place >= IN[1]);
                played.ends[endpoint].write(place & 0x1f, word, [STALL, 0][endpoint]);
            }
        }
    }

    fn interrupts(&self, on: bool) {
        self.borrow_mut().interrupts(on);
        interrupts_run(self);
    }

    fn wait(&self, milliseconds: u32) {
        let played = &mut self.borrow_mut().registers;
        if played.device_control & WAKE != 0 {
            played.woken = Some(milliseconds);
        }
    }
}

static PRODUCT: Product<'static> =
    Product::new(Identity { packet_size: PacketSize::Bytes16, remote_wakeup: true, ..Identity::TEST });

/// What a maker ships.
struct Plain;

impl Firmware for Plain {
    type Registers = Played;
    type Driver = Dwc2Usb<'static, &'static Wired>;
    type Cells = RefCell<SimFlash>;
    type Flash = Cells<SimFlash>;
    type Layout = Standard;

    fn product() -> &'static Product<'static> {
        &PRODUCT
    }

    fn registers() -> Played {
        Played::default()
    }

    fn driver(wire: &'static Wired) -> Self::Driver {
        Dwc2Usb(Box::leak(Box::new(Dwc2::start(wire))))
    }

    fn cells() -> RefCell<SimFlash> {
        RefCell::new(SimFlash::blank(2).unwrap())
    }

    fn flash(cells: &'static RefCell<SimFlash>) -> Cells<SimFlash> {
        Cells(cells)
    }

    fn round(driver: Self::Driver, device: &mut UsbOf<Self>) {
        driver.serve(device);
    }
}

#[test]
fn a_setup_packet_is_taken_from_the_start_on() {
    let wire = RefCell::new(testing::OnWire::quiet(Played::default()));
    let dwc2 = Dwc2::start(&wire);
    assert!(wire.borrow_mut().registers.setup([0; 8]));
    assert_eq!(Dwc2Usb(&dwc2).waiting().setup, Some([0; 8]));
}

#[test]
fn a_host_finds_no_fault() {
    testing::check::<Plain>(2000);
}
