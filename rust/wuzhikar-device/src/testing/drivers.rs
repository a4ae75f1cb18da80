// SPDX-License-Identifier: MIT OR Apache-2.0

//! What is asked of a driver alone, call by call.

use super::line::{Answer, Comes, IN, OUT, Wire, Wired};
use super::run::{Firmware, told, wired};
use crate::{Buffers, Controller, Endpoint1, Input, Output};

const GET_STATUS: [u8; 8] = [0x80, 0, 0, 0, 0, 0, 2, 0];
/// More accesses than a call makes.
const ACCESSES: usize = 1000;

/// What endpoint 0 is given.
#[derive(Clone, Copy, Debug)]
enum Given {
    InputNak,
    InputStall,
    /// The packet 1, 2.
    InputPacket,
    OutputNak,
    OutputStall,
    OutputTake,
}

const INPUTS: [Given; 3] = [Given::InputNak, Given::InputStall, Given::InputPacket];
const OUTPUTS: [Given; 3] = [Given::OutputNak, Given::OutputStall, Given::OutputTake];

/// A driver alone, after a reset.
struct Alone<F: Firmware> {
    wire: &'static Wired<F::Registers>,
    usb: F::Driver,
}

impl<F: Firmware> Alone<F> {
    /// Does a part of a test with a driver after a reset.
    fn does<T>(test: impl FnOnce(&mut Alone<F>) -> T) -> T {
        let wire = wired::<F>(None);
        told(wire, || {
            let mut alone = Alone::<F> { wire, usb: F::driver(wire) };
            wire.borrow_mut().registers.reset();
            assert!(alone.usb.waiting().reset, "a reset is told");
            alone.usb.forget();
            test(&mut alone)
        })
    }

    /// A SETUP packet comes, and is told.
    fn begins(&mut self) {
        assert!(self.wire.borrow_mut().registers.setup([0; 8]), "a SETUP packet is acknowledged");
        assert_eq!(self.usb.waiting().setup, Some([0; 8]), "a SETUP packet is told");
    }

    fn gives(&mut self, given: Given) {
        match given {
            Given::InputNak => self.usb.input_0(Input::Nak),
            Given::InputStall => self.usb.input_0(Input::Stall),
            Given::InputPacket => self.usb.input_0(Input::Packet([1, 2].into_iter().collect())),
            Given::OutputNak => self.usb.output_0(Output::Nak),
            Given::OutputStall => self.usb.output_0(Output::Stall),
            Given::OutputTake => self.usb.output_0(Output::Take),
        }
    }

    fn input(&self, endpoint: usize) -> Answer {
        let mut wire = self.wire.borrow_mut();
        let answer = wire.registers.input(endpoint);
        wire.line.tell(IN[endpoint], None, answer.clone(), false);
        answer
    }

    fn out(&self, toggle: bool, packet: &[u8]) -> Answer {
        let mut wire = self.wire.borrow_mut();
        let answer = wire.registers.out(toggle, packet);
        wire.line.tell(OUT[usize::from(toggle)], Some(packet), answer.clone(), false);
        answer
    }

    /// The host takes the packet of an endpoint, which has this data toggle and these bytes.
    fn takes(&self, endpoint: usize, toggle: bool, packet: &[u8]) {
        assert_eq!(self.input(endpoint), Answer::Packet(toggle, packet.to_vec()), "the packet of endpoint {endpoint}");
        self.wire.borrow_mut().registers.acknowledged(endpoint);
    }

    /// A call, in which this comes at an access: whether it came.
    fn comes_in(&mut self, at: usize, comes: Comes<F::Registers>, call: impl FnOnce(&mut Alone<F>)) -> bool {
        self.wire.borrow_mut().comes = Some((at, comes));
        call(self);
        assert!(!self.wire.borrow().is_masked(), "the interrupts stay off");
        self.wire.borrow_mut().comes.take().is_none()
    }
}

/// Both endpoints answer tokens as the driver was told: a packet with its data toggle, NAK, STALL, or nothing where endpoint 1 is
/// off. What the host takes and sends is told once.
pub fn answers<F: Firmware>() {
    for (given, answer) in INPUTS.into_iter().zip([Answer::Nak, Answer::Stall, Answer::Packet(true, vec![1, 2])]) {
        Alone::<F>::does(|alone| {
            alone.begins();
            alone.gives(given);
            assert_eq!(alone.input(0), answer, "an IN token behind {given:?}");
        });
    }
    for (given, answer) in OUTPUTS.into_iter().zip([Answer::Nak, Answer::Stall, Answer::Ack]) {
        Alone::<F>::does(|alone| {
            alone.begins();
            alone.gives(given);
            assert_eq!(alone.out(true, &[7]), answer, "an OUT packet behind {given:?}");
            let told = [alone.usb.waiting().out, alone.usb.waiting().out].map(|out| out.map(|out| out.to_vec()));
            assert_eq!(told, [(answer == Answer::Ack).then(|| vec![7]), None], "an OUT packet is told once");
        });
    }
    Alone::<F>::does(|alone| {
        alone.begins();
        for toggle in [true, false, true] {
            alone.gives(Given::InputPacket);
            alone.takes(0, toggle, &[1, 2]);
            assert_eq!([(); 2].map(|()| alone.usb.waiting().taken), [true, false], "a packet that the host took is told once");
        }
    });
    Alone::<F>::does(Alone::endpoint_1);
}

impl<F: Firmware> Alone<F> {
    fn endpoint_1(&mut self) {
        assert_eq!(self.input(1), Answer::Nothing, "endpoint 1 behind a reset");
        for _ in 0..2 {
            for (state, answer) in
                [(Endpoint1::Ready, Answer::Nak), (Endpoint1::Halted, Answer::Stall), (Endpoint1::Off, Answer::Nothing)]
            {
                self.usb.begin_anew(state);
                assert_eq!(self.input(1), answer, "endpoint 1 is {state:?}");
                self.usb.give_up();
                assert_eq!(self.input(1), answer, "endpoint 1 is {state:?} behind give_up");
            }
        }
        self.usb.begin_anew(Endpoint1::Ready);
        for (number, toggle) in [(1, false), (2, true), (3, false)] {
            self.usb.input_1([number].into_iter().collect());
            assert_eq!(self.usb.taken_1(), 0, "a packet that the host has not taken");
            self.takes(1, toggle, &[number]);
            assert_eq!([(); 2].map(|()| self.usb.taken_1()), [1, 0], "a packet that the host took is told once");
            assert_eq!(self.input(1), Answer::Nak, "endpoint 1 without a packet");
        }
        if self.usb.has_two() {
            (4..6).for_each(|number| self.usb.input_1([number].into_iter().collect()));
            self.takes(1, true, &[4]);
            self.takes(1, false, &[5]);
            assert_eq!(self.usb.taken_1(), 2, "two packets that the host took");
        }
    }
}

/// A SETUP packet, an OUT packet, and the host's taking of a packet, at any access of a call: each is told once, and nothing is left
/// in the buffers that it ends.
pub fn races<F: Firmware>() {
    let each = |does: &dyn Fn(usize) -> bool| {
        let came = (0..ACCESSES).take_while(|at| does(*at)).count();
        assert!(came > 0, "a call looks at no register");
    };
    for (input, output, call) in (0..3).flat_map(|one| (0..18).map(move |more| (INPUTS[one], OUTPUTS[more / 6], more % 6))) {
        let call = if call < 3 { INPUTS[call] } else { OUTPUTS[call - 3] };
        each(&|at| Alone::<F>::does(|alone| alone.is_overtaken(at, [input, output], call)));
    }
    each(&|at| Alone::<F>::does(|alone| alone.tells_all(at)));
    (0..ACCESSES).take_while(|at| Alone::<F>::does(|alone| alone.opens_again(*at))).for_each(drop);
    for again in [false, true] {
        each(&|at| Alone::<F>::does(|alone| alone.gives_up(at, again)));
    }
    (0..ACCESSES).take_while(|at| Alone::<F>::does(|alone| alone.hands_over(*at))).for_each(drop);
}

fn setup_comes<P: Wire>(registers: &mut P) -> bool {
    registers.setup(GET_STATUS)
}

fn out_comes<P: Wire>(registers: &mut P) -> bool {
    registers.out(true, &[7]) == Answer::Ack
}

fn takes_1<P: Wire>(registers: &mut P) -> bool {
    let takes = matches!(registers.input(1), Answer::Packet(..));
    if takes {
        registers.acknowledged(1);
    }
    takes
}

/// Each begins a test anew: what comes at an access of a call, and whether it came.
impl<F: Firmware> Alone<F> {
    /// A SETUP packet leaves nothing in the buffers of endpoint 0.
    fn is_overtaken(&mut self, at: usize, before: [Given; 2], call: Given) -> bool {
        self.begins();
        before.into_iter().for_each(|given| self.gives(given));
        let came = self.comes_in(at, setup_comes, |alone| alone.gives(call));
        if came {
            let place = format!("behind a SETUP packet at access {at} of {call:?}, {before:?}");
            assert_eq!(self.input(0), Answer::Nak, "{place}");
            assert_eq!(self.out(true, &[1]), Answer::Nak, "{place}");
            assert_eq!(self.usb.waiting().setup, Some(GET_STATUS), "{place}");
        }
        came
    }

    /// A packet that the host took, one that it sent, and a SETUP packet that comes at an access of `waiting`.
    fn tells_all(&mut self, at: usize) -> bool {
        self.begins();
        self.gives(Given::OutputTake);
        self.gives(Given::InputPacket);
        self.takes(0, true, &[1, 2]);
        assert_eq!(self.out(true, &[7]), Answer::Ack);
        let mut met = Vec::new();
        let came = self.comes_in(at, setup_comes, |alone| met.push(alone.usb.waiting()));
        met.extend([(); 3].map(|()| self.usb.waiting()));
        let outs: Vec<_> = met.iter().filter_map(|met| met.out.as_deref()).collect();
        assert_eq!(met.iter().filter(|met| met.taken).count(), 1, "taken, at access {at}");
        assert_eq!(outs, [[7]], "the OUT packet, at access {at}");
        assert!(met[0].taken && met[0].out.is_some(), "what came before is told first, at access {at}");
        assert_eq!(met.iter().filter(|met| met.setup.is_some()).count(), usize::from(came), "SETUP, at access {at}");
        came
    }

    /// An OUT packet that comes while OUT is opened once more is told as it was.
    fn opens_again(&mut self, at: usize) -> bool {
        self.begins();
        self.gives(Given::InputPacket);
        self.gives(Given::OutputTake);
        let came = self.comes_in(at, out_comes, |alone| alone.gives(Given::OutputTake));
        let told = [(); 2].map(|()| self.usb.waiting().out);
        let told: Vec<_> = told.iter().flatten().map(|out| out.to_vec()).collect();
        assert_eq!(told, vec![vec![7]; usize::from(came)], "an OUT packet at access {at} of Take");
        came
    }

    /// A packet of endpoint 1 is taken or dropped, and never stands in the buffer again.
    fn gives_up(&mut self, at: usize, again: bool) -> bool {
        self.usb.begin_anew(Endpoint1::Ready);
        self.usb.input_1([1].into_iter().collect());
        let came = self.comes_in(
            at,
            takes_1,
            |alone| {
                if again { alone.usb.begin_anew(Endpoint1::Ready) } else { alone.usb.give_up() }
            },
        );
        let place = format!(
            "{} in which the host took the packet at access {at}: {came}",
            if again { "begin_anew" } else { "give_up" }
        );
        assert_eq!(self.input(1), Answer::Nak, "{place}");
        assert_eq!(self.usb.taken_1(), 0, "{place}");
        self.usb.input_1([2].into_iter().collect());
        assert_eq!(self.input(1), Answer::Packet(came && !again, vec![2]), "{place}");
        came
    }

    /// A packet of endpoint 1 is handed over beside a SETUP packet.
    fn hands_over(&mut self, at: usize) -> bool {
        self.usb.begin_anew(Endpoint1::Ready);
        let came = self.comes_in(at, setup_comes, |alone| alone.usb.input_1([1].into_iter().collect()));
        assert_eq!(self.input(1), Answer::Packet(false, vec![1]), "beside a SETUP packet at access {at}");
        came
    }
}
