// SPDX-License-Identifier: MIT OR Apache-2.0
//! The main loop of a controller that asks at the token.

use crate::frames::{Frame, dump, out, scan};
use crate::uart::Uart;
use wuzhikar::{NorFlash, Work};
use wuzhikar_device::{Device, EpAnswer, HasKeyboard, PollAnswer};

pub fn run<F: NorFlash, K: HasKeyboard>(device: &mut Device<'_, F, K>, uart: &mut Uart) -> ! {
    loop {
        while !uart.waits() {
            match device.work() {
                Work::Idle => uart.sleep(),
                // Endpoint 0 is asked at its token, so nothing is to be armed.
                Work::Working | Work::Settled | Work::Failed => {}
            }
        }
        serve(device, uart);
    }
}

/// What one request asks for.
#[inline(never)]
fn serve<F: NorFlash, K: HasKeyboard>(device: &mut Device<'_, F, K>, uart: &mut Uart) {
    match uart.byte() {
        b'm' => {
            device.scan(scan(uart));
            Frame::of(b'k').send(uart, device.leds());
        }
        b's' => {
            device.setup(uart.bytes());
            Frame::of(b'k').send(uart, device.leds());
        }
        b'o' => {
            let (packet, length) = out(uart);
            let answer = device.out(&packet[..length]);
            endpoint_0(&answer, device.why().number()).send(uart, device.leds());
        }
        b'i' => in_packet(device, uart),
        b'p' => poll(device, uart),
        b'r' => {
            device.bus_reset();
            Frame::of(b'k').reset().send(uart, device.leds());
        }
        b'd' => dump(uart, device.keyboard()),
        _ => {}
    }
}

#[inline(never)]
fn in_packet<F: NorFlash, K: HasKeyboard>(device: &mut Device<'_, F, K>, uart: &mut Uart) {
    let (answer, change) = device.in_packet();
    endpoint_0(&answer, device.why().number()).with(change).send(uart, device.leds());
}

#[inline(never)]
fn poll<F: NorFlash, K: HasKeyboard>(device: &mut Device<'_, F, K>, uart: &mut Uart) {
    let answer = device.poll();
    endpoint_1(&answer).send(uart, device.leds());
}

fn endpoint_0(answer: &EpAnswer, why: u8) -> Frame<'_> {
    match answer {
        EpAnswer::Packet(packet) => Frame::data(packet),
        EpAnswer::Ack => Frame::of(b'A'),
        EpAnswer::Nak => Frame::of(b'N'),
        EpAnswer::Stall => Frame::stall(why),
    }
}

fn endpoint_1(answer: &PollAnswer) -> Frame<'_> {
    match answer {
        PollAnswer::Data(packet) => Frame::data(packet),
        PollAnswer::Nak => Frame::of(b'N'),
        PollAnswer::Stall => Frame::of(b'S'),
        PollAnswer::Nothing => Frame::of(b'k'),
    }
}
