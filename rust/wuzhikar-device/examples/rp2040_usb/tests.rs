//! The driver over registers that are played.

use super::played::{Played, Wired, interrupts_run};
use super::*;
use std::cell::RefCell;
use std::convert::Infallible;
use wuzhikar::Standard;
use wuzhikar_device::testing::{self, Firmware, OnWire, UsbOf, Wire};
use wuzhikar_device::{Identity, PacketSize, Product};
use wuzhikar_log::{FlashDriver, PairedFlash, UnitFlash};

fn quiet(revision: u32) -> Wired {
    RefCell::new(OnWire::quiet(Played::of(revision)))
}

/// Resets and SETUP packets in each order, of which the loop sees nothing before the last: what is told is what stands at the end.
#[test]
fn a_setup_packet_before_a_reset_is_gone() {
    for (revision, length, resets) in
        (1..3).flat_map(|one| (1..5).flat_map(move |n| (0..1 << n).map(move |bits: u32| (one, n, bits))))
    {
        let wire = quiet(revision);
        let rp2040 = Rp2040::start(&wire);
        for place in 0..length {
            if resets >> place & 1 != 0 {
                wire.borrow_mut().registers.reset();
            } else {
                wire.borrow_mut().registers.setup([0x80, 0, 0, 0, 0, 0, 2, 0]);
            }
            interrupts_run(&wire);
        }
        let met = Rp2040Usb(&rp2040).waiting();
        let is_last = resets >> (length - 1) & 1 == 0;
        assert_eq!((met.reset, met.setup.is_some()), (resets != 0, is_last), "{resets:b} of {length}, revision {revision}");
        assert_eq!(Rp2040Usb(&rp2040).waiting().setup, None);
        // A buffer is taken back in each way from then on as before.
        assert_eq!(wire.borrow().registers.word(NOTES), if revision == 2 { ABORTS } else { 0 });
    }
}

#[test]
fn what_the_packet_memory_held_is_gone_at_the_start() {
    let wire = quiet(2);
    (ENDPOINT_1..0x100).step_by(4).for_each(|place| *wire.borrow_mut().registers.at(place) = u32::MAX);
    let rp2040 = Rp2040::start(&wire);
    assert!((ENDPOINT_1..0x100).step_by(4).all(|place| wire.borrow().registers.word(place) == 0));
    assert!(!Rp2040Usb(&rp2040).waiting().reset);
}

#[test]
fn a_controller_that_has_stopped_stops_no_interrupt() {
    let wire = quiet(2);
    let rp2040 = Rp2040::start(&wire);
    Rp2040Usb(&rp2040).waiting();
    Rp2040Usb(&rp2040).output_0(Output::Take);
    wire.borrow_mut().registers.looks = Some(0);
    wire.borrow_mut().registers.setup([0x80, 6, 0, 1, 0, 0, 18, 0]);
    interrupts_run(&wire);
    assert_eq!(wire.borrow().registers.word(CONTROL + 4 * OUT_0) & AVAILABLE, 0);
    assert!(wire.borrow().registers.looks > Some(1000));
    assert!(Rp2040Usb(&rp2040).waiting().setup.is_some());
}

/// Reports of two packets, and a keyboard that may wake its host.
static PRODUCT: Product<'static> =
    Product::new(Identity { packet_size: PacketSize::Bytes16, remote_wakeup: true, ..Identity::TEST });

/// The driver of a flash with error correction, whose cells are shared.
struct Corrected(&'static RefCell<Vec<u8>>);

impl FlashDriver for Corrected {
    type Error = Infallible;
    const READ_SIZE: usize = 1;
    const WRITE_SIZE: usize = 8;
    const ERASE_SIZE: usize = 2048;

    fn capacity(&self) -> usize {
        self.0.borrow().len()
    }

    fn read(&mut self, offset: u32, bytes: &mut [u8]) -> Result<(), Infallible> {
        bytes.copy_from_slice(&self.0.borrow()[offset as usize..][..bytes.len()]);
        Ok(())
    }

    fn write(&mut self, offset: u32, bytes: &[u8]) -> Result<(), Infallible> {
        self.0.borrow_mut()[offset as usize..][..bytes.len()].copy_from_slice(bytes);
        Ok(())
    }

    fn erase(&mut self, from: u32, to: u32) -> Result<(), Infallible> {
        self.0.borrow_mut()[from as usize..to as usize].fill(0xff);
        Ok(())
    }
}

/// What a maker ships, with a flash driver of one's own, on a chip of a revision.
struct Shipped<const REVISION: u32>;

impl<const REVISION: u32> Firmware for Shipped<REVISION> {
    type Registers = Played;
    type Driver = Rp2040Usb<'static, &'static Wired>;
    type Cells = RefCell<Vec<u8>>;
    type Flash = PairedFlash<UnitFlash<Corrected>>;
    type Layout = Standard;

    fn product() -> &'static Product<'static> {
        &PRODUCT
    }

    fn registers() -> Played {
        Played::of(REVISION)
    }

    fn driver(wire: &'static Wired) -> Self::Driver {
        Rp2040Usb(Box::leak(Box::new(Rp2040::start(wire))))
    }

    fn cells() -> RefCell<Vec<u8>> {
        RefCell::new(vec![0xff; 16384])
    }

    fn flash(cells: &'static RefCell<Vec<u8>>) -> Self::Flash {
        PairedFlash::mount(UnitFlash::new(Corrected(cells), 0, 2).unwrap())
    }

    fn round(driver: Self::Driver, device: &mut UsbOf<Self>) {
        driver.serve(device);
    }
}

#[test]
fn a_host_finds_no_fault() {
    testing::check::<Shipped<2>>(2000);
}

#[test]
fn a_host_finds_no_fault_on_b1() {
    testing::check::<Shipped<1>>(1000);
}
