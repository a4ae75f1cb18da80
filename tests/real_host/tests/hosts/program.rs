// SPDX-License-Identifier: MIT OR Apache-2.0
//! The program `real_host serve`, and what a host asks of it by usbip.

use std::io::{BufRead, BufReader, ErrorKind, Read, Write};
use std::net::TcpStream;
use std::process::{Child, Command, Stdio};
use std::sync::mpsc::{Receiver, channel};
use std::time::Duration;

/// How long a test waits for what has to come. A machine under load takes a hundred times as long as a calm one.
pub const PATIENCE: Duration = Duration::from_secs(600);

pub const EINVAL: i32 = -22;
pub const EPIPE: i32 = -32;
pub const EPROTO: i32 = -71;
pub const SET: [u8; 8] = [0x21, 9, 3, 3, 0, 0, 6, 0];
const GET: [u8; 8] = [0xa1, 1, 3, 3, 0, 0, 6, 0];

/// The program, and what it prints.
pub struct Program {
    pub child: Child,
    pub out: Receiver<String>,
    pub err: Receiver<String>,
    pub address: String,
}

pub fn lines(from: impl Read + Send + 'static) -> Receiver<String> {
    let (to, lines) = channel();
    std::thread::spawn(move || BufReader::new(from).lines().map_while(Result::ok).try_for_each(|line| to.send(line)));
    lines
}

impl Program {
    pub fn start(options: &[&str]) -> Program {
        let mut child = Command::new(env!("CARGO_BIN_EXE_real_host"))
            .args(options)
            .args(["serve", "127.0.0.1:0"])
            .stdin(Stdio::piped())
            .stdout(Stdio::piped())
            .stderr(Stdio::piped())
            .spawn()
            .unwrap();
        let (out, err) = (lines(child.stdout.take().unwrap()), lines(child.stderr.take().unwrap()));
        let first = out.recv_timeout(PATIENCE).unwrap();
        let address = first.split("# ").nth(1).unwrap().to_string();
        Program { child, out, err, address }
    }

    pub fn hands(&mut self, line: &str) {
        writeln!(self.child.stdin.as_mut().unwrap(), "{line}").unwrap();
    }

    /// Waits for a line of standard output, or of standard error, that holds this.
    pub fn says(lines: &Receiver<String>, text: &str) {
        loop {
            let line = lines.recv_timeout(PATIENCE).unwrap_or_else(|_| panic!("no line with {text:?}"));
            if line.contains(text) {
                return;
            }
        }
    }

    /// Connects, and asks for a device: whether it is given.
    pub fn import(&self, name: &str) -> (TcpStream, bool) {
        let mut socket = TcpStream::connect(&self.address).unwrap();
        socket.set_read_timeout(Some(PATIENCE)).unwrap();
        let mut ask = vec![1, 0x11, 0x80, 3, 0, 0, 0, 0];
        ask.extend(name.bytes().chain(std::iter::repeat(0)).take(32));
        socket.write_all(&ask).unwrap();
        let mut answer = [0; 8];
        socket.read_exact(&mut answer).unwrap();
        let given = answer[4..] == [0; 4];
        socket.read_exact(&mut vec![0; if given { 312 } else { 0 }]).unwrap();
        (socket, given)
    }

    pub fn end(mut self) {
        self.hands("end");
        assert!(self.child.wait().unwrap().success());
    }
}

/// Configures the keyboard.
pub fn configure(socket: &mut TcpStream) {
    assert_eq!(control(socket, [0, 9, 1, 0, 0, 0, 0, 0], 0, &[]).0, 0);
}

/// Polls endpoint 1 with a transfer of up to so many bytes.
pub fn poll(socket: &mut TcpStream, length: u32) {
    let words = [1, 8, 1 << 16 | 1, 1, 1, 0, length, 0, 0, 0, 0, 0];
    socket.write_all(&words.iter().flat_map(|word: &u32| word.to_be_bytes()).collect::<Vec<_>>()).unwrap();
}

/// The head of an URB of endpoint 0.
pub fn urb(setup: [u8; 8], length: u32) -> Vec<u8> {
    let words = [1, 7, 1 << 16 | 1, u32::from(setup[0] >> 7), 0, 0, length, 0, 0, 0];
    let mut bytes: Vec<u8> = words.iter().flat_map(|word: &u32| word.to_be_bytes()).collect();
    bytes.extend(setup);
    bytes
}

/// A control transfer: its status and what was read.
pub fn control(socket: &mut TcpStream, setup: [u8; 8], length: u32, data: &[u8]) -> (i32, Vec<u8>) {
    socket.write_all(&[&urb(setup, length)[..], data].concat()).unwrap();
    let mut head = [0; 48];
    socket.read_exact(&mut head).unwrap();
    let number = |at: usize| u32::from_be_bytes([head[at], head[at + 1], head[at + 2], head[at + 3]]);
    let mut read = vec![0; if setup[0] & 0x80 != 0 { number(24) as usize } else { 0 }];
    socket.read_exact(&mut read).unwrap();
    (number(20) as i32, read)
}

pub fn set(socket: &mut TcpStream, code: u8) -> i32 {
    control(socket, SET, 6, &[3, 1, 0, 0, code, 0]).0
}

pub fn get(socket: &mut TcpStream) -> u8 {
    control(socket, GET, 6, &[]).1[4]
}

/// Waits until the other side hangs up; whether it does, and sends nothing before.
pub fn is_closed(socket: &mut TcpStream) -> bool {
    match socket.read(&mut [0]) {
        Ok(count) => count == 0,
        Err(error) => error.kind() == ErrorKind::ConnectionReset,
    }
}
