//! A controller in memory with data toggles (USB 2.0 section 8.6), on whose bus something happens at each of its calls.

use crate::testing::host::{Act, Host, Numbers, begins_endpoint_1, data, is_conforming_command, sets_protocol};
use crate::{Buffers, Controller, Endpoint1, Input, Output, Report, Waiting};
use std::cell::{RefCell, RefMut};
use std::collections::{HashMap, VecDeque};

/// How often what was met, so that the histories are seen to hold it.
#[derive(Clone, Copy, Debug, Default)]
pub struct Counts(pub [usize; 11]);

/// Commands that the host saw the end of, packets of endpoint 0 after which a SETUP packet came, reports that the host got
/// whole, packets that were dropped, stalls, addresses, packets that came again on endpoint 0 (IN, OUT) and on endpoint 1,
/// packets of endpoint 1 that were dropped as repetitions, and the firmware's own commands.
pub const CONFIRMED: usize = 0;
const OVERTAKEN: usize = 1;
pub const REPORTS: usize = 2;
const DROPPED: usize = 3;
pub const STALLS: usize = 4;
const ADDRESSES: usize = 5;
const AGAIN: [usize; 3] = [6, 7, 8];
const REPEATED: usize = 9;
pub const COMMANDS: usize = 10;

impl std::ops::AddAssign for Counts {
    fn add_assign(&mut self, more: Counts) {
        self.0.iter_mut().zip(more.0).for_each(|(count, more)| *count += more);
    }
}

enum Buffer {
    Nak,
    Packet(Vec<u8>),
    Stall,
}

/// A controller, its bus and its host.
pub struct Bus {
    pub numbers: Numbers,
    pub host: Host,
    /// Nothing happens on the bus by itself.
    pub quiet: bool,
    /// A maker's lock stalls conforming commands.
    pub allows_stalls: bool,
    /// One of so many acknowledgements is lost; none where it is 0.
    pub loses: usize,
    /// The newest report of each kind, by its first byte and its length, since the host forgot.
    pub known: HashMap<(u8, usize), Vec<u8>>,
    /// The commands that the host saw the end of, and that were not looked at.
    pub confirmed: Vec<Vec<u8>>,
    pub counts: Counts,
    /// The address that the host gave, from the moment that the controller knows of it, by the number of its SETUP packet.
    pub given: Option<(u8, usize)>,
    setups: usize,
    pub address: u8,
    met: (bool, Option<[u8; 8]>, Option<Vec<u8>>, bool),
    input: Buffer,
    output: Output,
    /// Whether the other side has the packet of this direction already, and its acknowledgement was lost.
    again: [bool; 2],
    pub endpoint_1: Endpoint1,
    packets: VecDeque<Vec<u8>>,
    taken_1: usize,
    /// The data toggles of endpoint 1: of the oldest packet in the buffers, and the one that the host wants.
    device: bool,
    wants: bool,
    /// The packets of the report under way that the host has.
    partial: Vec<u8>,
    /// Whether the host has set the boot protocol.
    is_boot: bool,
    pub size: usize,
    buffers: usize,
}

/// The controller: a copy of it is endpoint 1.
#[derive(Clone, Copy)]
pub struct Played<'b>(&'b RefCell<Bus>);

impl<'b> Played<'b> {
    pub fn on(bus: &'b RefCell<Bus>) -> Played<'b> {
        Played(bus)
    }

    pub fn bus(&self) -> RefMut<'b, Bus> {
        self.0.borrow_mut()
    }

    /// The bus, where something has happened on it.
    fn moved(&self) -> RefMut<'b, Bus> {
        let mut bus = self.bus();
        for _ in 0..if bus.quiet { 0 } else { bus.numbers.below(3) } {
            bus.go_on();
        }
        bus
    }
}

impl Bus {
    pub fn new(seed: u64, conforming: bool, size: usize, buffers: usize) -> Bus {
        let mut numbers = Numbers(seed.wrapping_mul(0x9e37_79b9_7f4a_7c15));
        numbers.below(2);
        Bus {
            numbers,
            host: Host::new(conforming, size),
            quiet: false,
            allows_stalls: false,
            loses: 4,
            known: HashMap::new(),
            confirmed: Vec::new(),
            counts: Counts::default(),
            given: None,
            setups: 0,
            address: 0,
            met: (false, None, None, false),
            input: Buffer::Nak,
            output: Output::Nak,
            again: [false; 2],
            endpoint_1: Endpoint1::Off,
            packets: VecDeque::new(),
            taken_1: 0,
            device: false,
            wants: false,
            partial: Vec::new(),
            is_boot: false,
            size,
            buffers,
        }
    }

    /// The host does what it does next.
    pub fn go_on(&mut self) {
        let act = self.host.next(&mut self.numbers);
        self.act(act);
    }

    /// The packet in the buffer of endpoint 0.
    pub fn packet_0(&self) -> &[u8] {
        if let Buffer::Packet(packet) = &self.input { packet } else { &[] }
    }

    fn is_lost(&mut self) -> bool {
        self.loses > 0 && self.numbers.one_of(self.loses)
    }

    pub fn act(&mut self, act: Act) {
        match act {
            Act::Reset => {
                self.met = (true, None, None, false);
                (self.input, self.output, self.again) = (Buffer::Nak, Output::Nak, [false; 2]);
                (self.address, self.given, self.endpoint_1) = (0, None, Endpoint1::Off);
                self.empty(false);
                (self.wants, self.taken_1, self.is_boot) = (false, 0, false);
                self.known.clear();
                self.partial.clear();
                self.host.stalled();
            }
            Act::Setup(packet) => {
                self.counts.0[OVERTAKEN] += usize::from(matches!(self.input, Buffer::Packet(_)));
                (self.input, self.output, self.again) = (Buffer::Nak, Output::Nak, [false; 2]);
                (self.met.1, self.given) = (Some(packet), None);
                self.setups += 1;
                self.host.began(packet, data(packet, &mut self.numbers));
            }
            Act::In => self.in_token(),
            Act::Out(packet) => self.out_packet(packet),
            Act::Poll => self.poll(),
        }
    }

    fn in_token(&mut self) {
        let lost = self.is_lost();
        match std::mem::replace(&mut self.input, Buffer::Nak) {
            Buffer::Nak => {}
            Buffer::Stall => {
                self.input = Buffer::Stall;
                self.stalled();
            }
            Buffer::Packet(packet) => {
                if std::mem::replace(&mut self.again[0], lost) {
                    self.counts.0[AGAIN[0]] += 1;
                } else if self.host.came(&packet) {
                    self.host_is_done();
                }
                if lost {
                    self.input = Buffer::Packet(packet);
                } else {
                    self.met.3 = true;
                    self.given =
                        Some(self.host.setup()).filter(|setup| setup[..2] == [0, 5]).map(|setup| (setup[2], self.setups));
                }
            }
        }
    }

    /// The host has the status packet of its transfer.
    fn host_is_done(&mut self) {
        let setup = self.host.setup();
        if begins_endpoint_1(setup) {
            self.wants = false;
            self.partial.clear();
        }
        if sets_protocol(setup) {
            self.is_boot = setup[2] == 0;
            self.known.clear();
        }
        if is_conforming_command(setup, self.host.data()) {
            self.counts.0[CONFIRMED] += 1;
            self.confirmed.push(self.host.data().to_vec());
        }
    }

    fn stalled(&mut self) {
        let is_conforming = self.host.is_conforming() && is_conforming_command(self.host.setup(), self.host.data());
        assert!(!is_conforming || self.allows_stalls, "a conforming command is stalled");
        assert!(!self.host.is_conforming() || !self.host.ends_a_read(), "the end of a read is stalled");
        self.counts.0[STALLS] += 1;
        self.host.stalled();
    }

    /// Of a packet that comes again this controller sees the toggle before its NAK, as section 8.4.6.3 has it.
    fn out_packet(&mut self, packet: Vec<u8>) {
        match self.output {
            Output::Stall => return self.stalled(),
            _ if self.again[1] => self.counts.0[AGAIN[1]] += 1,
            Output::Nak => return,
            Output::Take => {
                self.met.2 = Some(packet);
                self.output = Output::Nak;
            }
        }
        self.again[1] = self.is_lost();
        if !self.again[1] {
            self.host.taken();
        }
    }

    fn poll(&mut self) {
        let Some(packet) = self.packets.front().cloned().filter(|_| self.endpoint_1 == Endpoint1::Ready) else { return };
        if self.wants == self.device {
            self.wants = !self.device;
            self.partial.extend(&packet);
            // A host asks for 8 bytes in the boot protocol.
            if packet.len() < self.size || self.partial.len() >= if self.is_boot { 8 } else { 23 } {
                self.counts.0[REPORTS] += 1;
                let report = std::mem::take(&mut self.partial);
                self.known.insert((report[0] * u8::from(report.len() != 8), report.len()), report);
            }
        } else {
            self.counts.0[REPEATED] += 1;
        }
        if self.is_lost() {
            self.counts.0[AGAIN[2]] += 1;
        } else {
            self.packets.pop_front();
            self.device = !self.device;
            self.taken_1 += 1;
        }
    }

    fn empty(&mut self, device: bool) {
        self.counts.0[DROPPED] += self.packets.len();
        self.packets.clear();
        self.device = device;
    }
}

impl Controller for Played<'_> {
    fn waiting(&mut self) -> Waiting {
        let (reset, setup, out, taken) = std::mem::take(&mut self.moved().met);
        Waiting { reset, setup, out: out.map(|packet| packet.into_iter().collect()), taken }
    }

    fn input_0(&mut self, answer: Input) {
        let mut bus = self.moved();
        if !bus.met.0 && bus.met.1.is_none() {
            bus.again[0] = false;
            bus.input = match answer {
                Input::Nak => Buffer::Nak,
                Input::Packet(packet) => Buffer::Packet(packet.to_vec()),
                Input::Stall => Buffer::Stall,
            };
        }
    }

    fn output_0(&mut self, answer: Output) {
        let mut bus = self.moved();
        if !bus.met.0 && bus.met.1.is_none() {
            bus.output = answer;
        }
    }

    fn set_address(&mut self, address: u8) {
        let mut bus = self.moved();
        if !bus.met.0 {
            bus.counts.0[ADDRESSES] += usize::from(bus.address != address);
            bus.address = address;
        }
    }
}

impl Buffers for Played<'_> {
    fn has_two(&self) -> bool {
        self.bus().buffers == 2
    }

    fn taken_1(&mut self) -> usize {
        std::mem::take(&mut self.moved().taken_1)
    }

    fn begin_anew(&mut self, state: Endpoint1) {
        let mut bus = self.moved();
        if !bus.met.0 {
            bus.empty(false);
            (bus.endpoint_1, bus.taken_1) = (state, 0);
        }
    }

    fn give_up(&mut self) {
        let mut bus = self.moved();
        if !bus.met.0 {
            let device = bus.device;
            bus.empty(device);
            bus.taken_1 = 0;
        }
    }

    fn host_began(&mut self) {}

    fn forget(&mut self) {
        let mut bus = self.bus();
        bus.empty(false);
        (bus.endpoint_1, bus.taken_1) = (Endpoint1::Off, 0);
    }

    fn input_1(&mut self, packet: Report) {
        let mut bus = self.moved();
        if !bus.met.0 {
            assert!(bus.packets.len() < bus.buffers);
            bus.packets.push_back(packet.to_vec());
        }
    }
}
