// SPDX-License-Identifier: MIT OR Apache-2.0
//! The main loop of a controller that is handed packets beforehand, and such a controller: the tokens come by the UART, and are
//! answered from buffers before the device is asked.

use crate::PRODUCT;
use crate::frames::{Frame, dump, out, scan};
use crate::uart::Uart;
use core::cell::RefCell;
use core::mem::MaybeUninit;
use wuzhikar::NorFlash;
use wuzhikar_device::{
    Buffers, Change, Controller, DeviceLayer, Endpoint1, Endpoints, HasKeyboard, Input, Keys, Output, Report, UsbDevice,
    Waiting,
};

const NOTHING: Waiting = Waiting { reset: false, setup: None, out: None, taken: false };

/// What a controller with one buffer each holds.
struct State {
    met: Waiting,
    taken_1: usize,
    input_0: Input,
    output_0: Output,
    input_1: Option<Report>,
    endpoint_1: Endpoint1,
    address: u8,
    /// What the host's side is told of with the next frame: a change, or a reset.
    change: Option<Change>,
    resets: bool,
}

impl State {
    const fn new() -> State {
        State {
            met: NOTHING,
            taken_1: 0,
            input_0: Input::Nak,
            output_0: Output::Nak,
            input_1: None,
            endpoint_1: Endpoint1::Off,
            address: 0,
            change: None,
            resets: false,
        }
    }

    /// A reset or a SETUP packet was met that the device has not seen.
    fn is_late(&self) -> bool {
        self.met.reset || self.met.setup.is_some()
    }

    fn setup(&mut self, packet: [u8; 8]) {
        self.met.setup = Some(packet);
        (self.input_0, self.output_0) = (Input::Nak, Output::Nak);
    }

    fn out(&mut self, packet: &[u8]) -> u8 {
        match self.output_0 {
            Output::Nak => b'N',
            Output::Stall => b'S',
            Output::Take => {
                self.met.out = Some(packet.iter().copied().collect());
                self.output_0 = Output::Nak;
                b'A'
            }
        }
    }

    fn in_0(&mut self) -> (u8, Report) {
        match core::mem::replace(&mut self.input_0, Input::Nak) {
            Input::Nak => (b'N', Report::new()),
            Input::Packet(packet) => {
                self.met.taken = true;
                (b'D', packet.into_iter().collect())
            }
            Input::Stall => {
                self.input_0 = Input::Stall;
                (b'S', Report::new())
            }
        }
    }

    fn in_1(&mut self) -> (u8, Report) {
        match (self.endpoint_1, self.input_1.take()) {
            (Endpoint1::Off, _) => (b'k', Report::new()),
            (Endpoint1::Halted, _) => (b'S', Report::new()),
            (Endpoint1::Ready, None) => (b'N', Report::new()),
            (Endpoint1::Ready, Some(packet)) => {
                self.taken_1 += 1;
                (b'D', packet)
            }
        }
    }
}

static mut STATE: MaybeUninit<RefCell<State>> = MaybeUninit::uninit();

/// The controller: endpoint 0 for the loop, and a copy of it, endpoint 1, that the device owns.
#[derive(Clone, Copy)]
pub struct Soft(&'static RefCell<State>);

impl Controller for Soft {
    fn waiting(&mut self) -> Waiting {
        core::mem::replace(&mut self.0.borrow_mut().met, NOTHING)
    }

    fn input_0(&mut self, answer: Input) {
        let mut state = self.0.borrow_mut();
        if !state.is_late() {
            state.input_0 = answer;
        }
    }

    fn output_0(&mut self, answer: Output) {
        let mut state = self.0.borrow_mut();
        if !state.is_late() {
            state.output_0 = answer;
        }
    }

    fn set_address(&mut self, address: u8) {
        let mut state = self.0.borrow_mut();
        if core::mem::replace(&mut state.address, address) != address {
            state.change = Some(Change::Address(address));
        }
    }
}

impl Buffers for Soft {
    fn has_two(&self) -> bool {
        false
    }

    fn taken_1(&mut self) -> usize {
        core::mem::take(&mut self.0.borrow_mut().taken_1)
    }

    fn begin_anew(&mut self, endpoint: Endpoint1) {
        let mut state = self.0.borrow_mut();
        (state.endpoint_1, state.input_1, state.taken_1) = (endpoint, None, 0);
        state.change = Some(Change::Endpoint(endpoint));
    }

    fn give_up(&mut self) {
        let mut state = self.0.borrow_mut();
        (state.input_1, state.taken_1) = (None, 0);
    }

    fn host_began(&mut self) {}

    fn forget(&mut self) {
        let mut state = self.0.borrow_mut();
        (state.endpoint_1, state.input_1, state.taken_1) = (Endpoint1::Off, None, 0);
        state.resets = true;
    }

    fn input_1(&mut self, packet: Report) {
        self.0.borrow_mut().input_1 = Some(packet);
    }
}

/// The device behind its layer, and over its controller.
pub fn device<K: Endpoints>(keys: K) -> UsbDevice<'static, K, Soft> {
    // SAFETY: it is called once, and nothing else has named the state.
    let state = unsafe { &mut *(&raw mut STATE) }.write(RefCell::new(State::new()));
    UsbDevice::new(DeviceLayer::new(PRODUCT.descriptors()), keys, Soft(state), PRODUCT.identity().packet_size)
}

pub fn run<F: NorFlash, K: HasKeyboard>(device: &mut UsbDevice<'_, Keys<F, K>, Soft>, uart: &mut Uart) -> ! {
    // SAFETY: `device`, whose result this is, wrote the state.
    let mut soft = Soft(unsafe { (*(&raw const STATE)).assume_init_ref() });
    loop {
        while !uart.waits() {
            device.work();
            device.serve(&mut soft);
            if !device.behind().may_work() {
                uart.sleep();
            }
        }
        serve(device, soft, uart);
    }
}

/// What one request asks for: the token is answered from the buffers, and then the device is asked.
#[inline(never)]
fn serve<F: NorFlash, K: HasKeyboard>(device: &mut UsbDevice<'_, Keys<F, K>, Soft>, mut soft: Soft, uart: &mut Uart) {
    let state = soft.0;
    let (kind, packet) = match uart.byte() {
        b'm' => {
            device.scan_rows(scan(uart).rows);
            (b'k', Report::new())
        }
        b's' => {
            state.borrow_mut().setup(uart.bytes());
            (b'k', Report::new())
        }
        b'o' => {
            let (packet, length) = out(uart);
            (state.borrow_mut().out(&packet[..length]), Report::new())
        }
        b'i' => state.borrow_mut().in_0(),
        b'p' => state.borrow_mut().in_1(),
        b'r' => {
            let mut state = state.borrow_mut();
            *state = State::new();
            state.met.reset = true;
            (b'k', Report::new())
        }
        b'd' => return dump(uart, device.behind().keyboard()),
        _ => return,
    };
    device.serve(&mut soft);
    let mut state = state.borrow_mut();
    let frame = if kind == b'D' { Frame::data(&packet) } else { Frame::of(kind) };
    let frame = frame.with(state.change.take());
    let frame = if core::mem::take(&mut state.resets) { frame.reset() } else { frame };
    frame.send(uart, device.behind().leds());
}
