//! The driver over registers that are played: a write turns bits of STAT and DTOG round, and at any access something may
//! come on the bus.

use super::*;
use wuzhikar::{SimFlash, Standard};
use wuzhikar_device::testing::{self, Answer, Cells, Firmware, OnWire, UsbOf, Wire, Wired};
use wuzhikar_device::{Identity, PacketSize, Product};

#[derive(Debug, Default)]
struct Played {
    endpoints: [u16; 2],
    control: u16,
    status: u16,
    address: u16,
    received: ArrayVec<u8, 8>,
    packets: [Vec<u8>; 2],
    /// For how many milliseconds the device signalled K, and whether it does.
    woken: Option<u32>,
}

impl Wire for Played {
    /// It ends what the buffers of endpoint 0 hold; the packet before it has to be looked at first.
    fn setup(&mut self, packet: [u8; 8]) -> bool {
        let comes = self.address & ENABLED != 0 && self.endpoints[0] & CTR_RX == 0;
        if comes {
            self.received = packet.into();
            self.endpoints[0] |= CTR_RX | SETUP | DTOG_RX | DTOG_TX;
            self.endpoints[0] = self.endpoints[0] & !(STAT_RX | STAT_TX) | NAK;
        }
        comes
    }

    /// A packet with the other toggle is acknowledged, and dropped.
    fn out(&mut self, toggle: bool, packet: &[u8]) -> Answer {
        let old = self.endpoints[0];
        match old & STAT_RX {
            _ if self.address & ENABLED == 0 => Answer::Nothing,
            stall if stall == STALL & STAT_RX => Answer::Stall,
            valid if valid == VALID & STAT_RX && old & CTR_RX == 0 => {
                if toggle == (old & DTOG_RX != 0) {
                    self.received = packet.iter().copied().collect();
                    self.endpoints[0] = (old & !(STAT_RX | SETUP) | CTR_RX | NAK & STAT_RX) ^ DTOG_RX;
                }
                Answer::Ack
            }
            _ => Answer::Nak,
        }
    }

    fn input(&mut self, endpoint: usize) -> Answer {
        let register = self.endpoints[endpoint];
        match register & STAT_TX {
            _ if self.address & ENABLED == 0 => Answer::Nothing,
            valid if valid == VALID & STAT_TX => Answer::Packet(register & DTOG_TX != 0, self.packets[endpoint].clone()),
            stall if stall == STALL & STAT_TX => Answer::Stall,
            nak if nak == NAK & STAT_TX => Answer::Nak,
            _ => Answer::Nothing,
        }
    }

    fn acknowledged(&mut self, endpoint: usize) {
        let register = &mut self.endpoints[endpoint];
        *register = (*register & !STAT_TX | CTR_TX | NAK & STAT_TX) ^ DTOG_TX;
    }

    fn reset(&mut self) {
        self.resume();
        (self.endpoints, self.address) = ([0; 2], 0);
        self.status |= RESET;
    }

    fn suspend(&mut self) {
        self.status |= SUSPENDED;
    }

    fn resume(&mut self) {
        if self.control & SUSPEND != 0 {
            self.status |= RESUMED;
        }
        self.status &= !SUSPENDED;
    }

    fn address(&self) -> u8 {
        (self.address & !ENABLED) as u8
    }

    fn wakes(&mut self) -> bool {
        self.woken.take_if(|_| self.control & WAKE == 0).is_some_and(|time| (1..=15).contains(&time))
    }
}

impl Registers for OnWire<Played> {
    fn read(&mut self, register: Register) -> u16 {
        self.access();
        let played = &self.registers;
        match register {
            Register::Endpoint0 => played.endpoints[0],
            Register::Endpoint1 => played.endpoints[1],
            Register::Control => played.control,
            Register::Status => played.status,
            Register::Address => played.address,
        }
    }

    fn write(&mut self, register: Register, value: u16) {
        self.access();
        let played = &mut self.registers;
        match register {
            Register::Control => played.control = value,
            Register::Status => played.status &= value,
            Register::Address => played.address = value,
            Register::Endpoint0 | Register::Endpoint1 => {
                let old = &mut played.endpoints[usize::from(register == Register::Endpoint1)];
                let turned = (*old ^ value) & (STAT_TX | STAT_RX | DTOG_TX | DTOG_RX);
                *old = turned | *old & value & (CTR_TX | CTR_RX) | value & (NUMBER | TYPE | KIND) | *old & SETUP;
            }
        }
    }

    fn received(&mut self) -> ArrayVec<u8, 8> {
        self.registers.received.clone()
    }

    fn fill(&mut self, endpoint: Register, packet: &[u8]) {
        self.registers.packets[usize::from(endpoint == Register::Endpoint1)] = packet.to_vec();
    }

    fn lay_out(&mut self) {}

    fn interrupts(&mut self, on: bool) {
        OnWire::interrupts(self, on);
    }

    fn wait(&mut self, milliseconds: u32) {
        if self.registers.control & WAKE != 0 {
            self.registers.woken = Some(milliseconds);
        }
    }
}

/// Reports of one packet, and a keyboard that may wake its host.
static PLAIN: Product<'static> =
    Product::new(Identity { packet_size: PacketSize::Bytes32, remote_wakeup: true, ..Identity::TEST });

/// Reports of up to three packets, and a keyboard that may not wake its host.
static SMALL: Product<'static> =
    Product::new(Identity { packet_size: PacketSize::Bytes8, remote_wakeup: false, ..Identity::TEST });

/// What a maker ships.
struct Shipped<const IS_SMALL: bool>;

impl<const IS_SMALL: bool> Firmware for Shipped<IS_SMALL> {
    type Registers = Played;
    type Driver = Stm32Usb<'static, OnWire<Played>>;
    type Cells = RefCell<SimFlash>;
    type Flash = Cells<SimFlash>;
    type Layout = Standard;

    fn product() -> &'static Product<'static> {
        if IS_SMALL { &SMALL } else { &PLAIN }
    }

    fn registers() -> Played {
        Played::default()
    }

    fn driver(wire: &'static Wired<Played>) -> Self::Driver {
        Stm32Usb::new(wire)
    }

    fn cells() -> RefCell<SimFlash> {
        RefCell::new(SimFlash::blank(2).unwrap())
    }

    fn flash(cells: &'static RefCell<SimFlash>) -> Cells<SimFlash> {
        Cells(cells)
    }

    fn round(driver: Self::Driver, device: &mut UsbOf<Self>) {
        driver.serve(device);
    }
}

#[test]
fn a_host_finds_no_fault() {
    testing::check::<Shipped<false>>(2000);
}

#[test]
fn a_host_finds_no_fault_with_small_packets() {
    testing::check::<Shipped<true>>(1000);
}

#[test]
fn neither_fsusp_nor_resume_is_left() {
    assert_eq!(testing::session::<Shipped<false>>().borrow().registers.control, 0);
}
