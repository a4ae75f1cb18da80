// SPDX-License-Identifier: MIT OR Apache-2.0
//! Hosts that ask and don't listen: none of them holds the keyboard up, or makes it take memory without end.

use crate::program::{Program, is_closed, poll, urb};
use std::io::Write;
use std::net::TcpStream;
use std::time::{Duration, Instant};

/// What a host may send before it is hung up on.
const MOST: usize = 64 << 20;

/// Sends the same again and again, until it is hung up on: whether it was.
fn floods(socket: &mut TcpStream, bytes: &[u8]) -> bool {
    (0..MOST / bytes.len()).any(|_| socket.write_all(bytes).is_err())
}

/// Whether the keys go on, and another host is served.
fn lives_on(mut program: Program) {
    program.hands("leds");
    Program::says(&program.out, "leds 00");
    assert!(program.import("1-1").1);
    program.end();
}

#[test]
fn a_host_that_reads_no_answers_is_hung_up_on() {
    let program = Program::start(&[]);
    let (mut host, _) = program.import("1-1");
    host.set_write_timeout(Some(Duration::from_secs(20))).unwrap();
    // GET_DESCRIPTOR of the report descriptor.
    assert!(floods(&mut host, &urb([0x81, 6, 0, 0x22, 0, 0, 255, 0], 255).repeat(100)));
    Program::says(&program.err, "the host has gone: it reads no answers");
    lives_on(program);
}

#[test]
fn keys_are_scanned_while_a_host_asks_all_the_time() {
    let mut program = Program::start(&[]);
    let (mut host, _) = program.import("1-1");
    // What is nothing to be answered at length: an unlinked URB that never was.
    let unlink: Vec<u8> = [2u32, 7, 1 << 16 | 1, 0, 0, 9].iter().flat_map(|word| word.to_be_bytes()).chain([0; 24]).collect();
    let mut answers = host.try_clone().unwrap();
    std::thread::spawn(move || std::io::copy(&mut answers, &mut std::io::sink()));
    let asks = std::thread::spawn(move || while host.write_all(&unlink.repeat(1_000)).is_ok() {});
    program.hands("wait 300");
    program.hands("say waited");
    Program::says(&program.out, "waited");
    program.end();
    asks.join().unwrap();
}

#[test]
fn polls_that_wait_are_counted() {
    let program = Program::start(&[]);
    let (mut host, _) = program.import("1-1");
    for _ in 0..257 {
        poll(&mut host, 64);
    }
    assert!(is_closed(&mut host));
    Program::says(&program.err, "the host has gone: more than 256 polls wait");
    lives_on(program);
}

#[test]
fn a_greeting_has_one_deadline() {
    let program = Program::start(&[]);
    let mut slow = TcpStream::connect(&program.address).unwrap();
    let drips = std::thread::spawn(move || {
        let begun = Instant::now();
        let ask = [1, 0x11, 0x80, 3, 0, 0, 0, 0].into_iter().chain(std::iter::repeat(b'1'));
        for byte in ask.take_while(|_| begun.elapsed() < Duration::from_secs(30)) {
            if slow.write_all(&[byte]).is_err() {
                break;
            }
            std::thread::sleep(Duration::from_millis(1_500));
        }
        begun.elapsed()
    });
    std::thread::sleep(Duration::from_millis(100));
    lives_on(program);
    assert!(drips.join().unwrap() < Duration::from_secs(30));
}
