// SPDX-License-Identifier: MIT OR Apache-2.0
//! The keyboard between its hands and its host, event by event.

use crate::kept::Kept;
use crate::on_bus::{OnBus, plug, scan_of};
use crate::socket::{Answers, Socket};
use crate::{function, hands, print, tell, usbip, usbredir};
use std::collections::VecDeque;
use std::fmt::Display;
use std::fs::File;
use std::io::{Error, ErrorKind, Result};
use std::net::TcpStream;
use std::os::fd::AsRawFd;
use std::os::unix::net::UnixStream;
use std::sync::mpsc::{Receiver, RecvTimeoutError, Sender, sync_channel};
use std::time::{Duration, Instant};
use wuzhikar::Scan;

/// What happens.
pub enum Event {
    Urb(u32, usbip::Urb),
    Message(u32, usbredir::Message),
    Gone(u32),
    Line(String),
    Plugged(TcpStream),
    Guest(UnixStream),
}

/// What is spoken on the wire.
enum Wire {
    Usbip(usbip::Wire<Answers>),
    Usbredir(usbredir::Wire<Answers>),
    Function(function::Wire<File>),
}

/// The host that the keyboard is plugged into.
struct Host {
    number: u32,
    /// Where the kernel of this Linux stands between there is none.
    socket: Option<Socket>,
    wire: Wire,
    /// What it asked and the keyboard has not taken, of which some waits at most.
    asked: Receiver<()>,
}

/// How much of a host waits for the keyboard at most; then its socket is read no further.
const MOST_ASKED: usize = 256;

const VHCI: &str = "/sys/devices/platform/vhci_hcd.0";

/// What to do where Linux's virtual host controller can't be used.
fn without_vhci(error: Error) -> Error {
    match error.kind() {
        ErrorKind::NotFound => Error::other("vhci_hcd is not there: as root, modprobe vhci-hcd"),
        ErrorKind::PermissionDenied => Error::other("only root may plug a device into vhci_hcd"),
        _ => error,
    }
}

/// An error of a file or an address, with its name.
pub fn named(name: impl Display, error: Error) -> Error {
    Error::new(error.kind(), format!("{name}: {error}"))
}

/// Whether Linux has no device at this port of the virtual host controller. It has one that was unplugged until its hub has
/// looked, and takes another that is plugged in before that for the same.
fn is_empty(port: u32) -> Result<bool> {
    for entry in std::fs::read_dir(VHCI).map_err(without_vhci)? {
        let hub = entry?;
        if let Some(bus) = hub.file_name().to_str().and_then(|name| name.strip_prefix("usb")) {
            if hub.path().join(format!("{bus}-{}", port + 1)).exists() {
                return Ok(false);
            }
        }
    }
    Ok(true)
}

/// Plugs a device into this Linux: a free port gets one end of a pair of sockets, the other end is the wire.
fn plug_in_here() -> Result<Socket> {
    let (here, there) = UnixStream::pair()?;
    for _ in 0..100 {
        let ports = std::fs::read_to_string(format!("{VHCI}/status")).map_err(without_vhci)?;
        // hub port sta ..: a port of the hub of full and high speed that is in state 4 is free
        for line in ports.lines().map(|line| line.split_whitespace().collect::<Vec<_>>()) {
            let ["hs", port, "004", ..] = line[..] else { continue };
            let port: u32 = port.parse().unwrap_or(0);
            if !is_empty(port)? {
                continue;
            }
            let words = format!("{port} {} {} {}", there.as_raw_fd(), usbip::DEVICE, usbip::FULL_SPEED);
            match std::fs::write(format!("{VHCI}/attach"), words) {
                Ok(()) => return Ok(Socket::Pair(here)),
                // Another device took the port just now.
                Err(error) if error.kind() == ErrorKind::ResourceBusy => {}
                Err(error) => return Err(without_vhci(error)),
            }
        }
        std::thread::sleep(Duration::from_millis(20));
    }
    Err(Error::other("no port of vhci_hcd is free"))
}

/// How long the hands wait for a host that does not poll, in milliseconds.
const PATIENCE: u32 = 5_000;

/// The keyboard between its hands and its host.
pub struct Run {
    device: Box<dyn OnBus>,
    host: Option<Host>,
    plugs: u32,
    scan: Scan,
    hands: VecDeque<hands::Act>,
    /// How many milliseconds the keys are held as they are, at least.
    left: u32,
    /// Whether the hands wait until the host has all reports, and for how many milliseconds at most.
    waiting: bool,
    patience: u32,
    /// Whether the host is this Linux.
    here: bool,
    events: Sender<Event>,
    kept: Option<Kept>,
}

impl Run {
    /// A keyboard that nothing is plugged to. Its flash is kept in this file from now on, where there is one.
    pub fn new(device: Box<dyn OnBus>, kept: Option<Kept>, events: Sender<Event>) -> Run {
        let (scan, hands) = (Scan::NONE, VecDeque::new());
        Run { device, host: None, plugs: 0, scan, hands, left: 0, waiting: false, patience: 0, here: false, events, kept }
    }

    /// Plugs it into this Linux.
    pub fn attach(&mut self) -> Result<()> {
        self.here = true;
        let socket = plug_in_here()?;
        self.plug(socket)
    }

    fn plug(&mut self, socket: Socket) -> Result<()> {
        self.plugs += 1;
        let (number, mut from) = (self.plugs, socket.again()?);
        let asked = self.listen(number, move || usbip::read_urb(&mut from).map(|urb| Event::Urb(number, urb)));
        let wire = usbip::Wire::plug(Answers::to(socket.again()?)?, &mut *self.device);
        (self.waiting, self.patience) = (true, PATIENCE);
        self.host = Some(Host { number, socket: Some(socket), wire: Wire::Usbip(wire), asked });
        Ok(())
    }

    /// Hears what this host sends, until it has gone or sends what is nothing of its protocol.
    fn listen(&self, number: u32, mut read: impl FnMut() -> Result<Event> + Send + 'static) -> Receiver<()> {
        let events = self.events.clone();
        let (room, asked) = sync_channel(MOST_ASKED);
        std::thread::spawn(move || {
            loop {
                match read() {
                    Ok(event) => {
                        if room.send(()).is_err() || events.send(event).is_err() {
                            return;
                        }
                    }
                    Err(error) => {
                        if error.kind() == ErrorKind::InvalidData {
                            tell(error);
                        }
                        break;
                    }
                }
            }
            let _ = events.send(Event::Gone(number));
        });
        asked
    }

    fn guest(&mut self, socket: Socket) -> Result<()> {
        self.plugs += 1;
        let (number, mut from) = (self.plugs, socket.again()?);
        let mut first = true;
        let asked = self.listen(number, move || {
            let message = usbredir::read_message(&mut from, std::mem::take(&mut first))?;
            Ok(Event::Message(number, message))
        });
        let wire = usbredir::Wire::plug(Answers::to(socket.again()?)?, &mut *self.device)?;
        (self.waiting, self.patience) = (true, PATIENCE);
        self.host = Some(Host { number, socket: Some(socket), wire: Wire::Usbredir(wire), asked });
        Ok(())
    }

    /// It is a function of this Linux.
    pub fn function(&mut self, wire: function::Wire<File>) {
        self.plugs += 1;
        (self.waiting, self.patience) = (true, PATIENCE);
        let (_, asked) = sync_channel(0);
        self.host = Some(Host { number: self.plugs, socket: None, wire: Wire::Function(wire), asked });
    }

    /// The power went and came back: the device vanishes from the bus, and is there again.
    fn replug(&mut self) -> Result<()> {
        match &mut self.host {
            Some(Host { wire: Wire::Usbredir(wire), .. }) => {
                wire.unplug()?;
                std::thread::sleep(Duration::from_millis(200));
                plug(&mut *self.device);
                wire.connect()?;
                (self.waiting, self.patience) = (true, PATIENCE);
            }
            // (The host is hung up on behind what was answered.)
            _ => self.host = None,
        }
        if self.here {
            let socket = plug_in_here()?;
            self.plug(socket)?;
        }
        print("restart")
    }

    /// Takes up the power cut that an URB met.
    fn met(&mut self, taken: Result<()>) -> Result<()> {
        match taken {
            Err(error) if error.kind() == ErrorKind::ConnectionReset => self.replug(),
            taken => {
                self.keep(taken);
                Ok(())
            }
        }
    }

    /// A host that can't be written to has gone; the keyboard lives on.
    fn keep(&mut self, told: Result<()>) {
        if let Err(error) = told {
            tell(format_args!("the host has gone: {error}"));
            if let Some(socket) = self.host.take().and_then(|host| host.socket) {
                socket.hang_up();
            }
        }
    }

    /// A millisecond has passed; whether the host polls, and has all reports. The hands wait for it, so that a slow host
    /// loses no key. One that does not poll is waited for once.
    fn pass(&mut self, has_all: bool) {
        if self.left > 0 {
            self.left -= 1;
        } else if has_all {
            (self.waiting, self.patience) = (false, PATIENCE);
        } else {
            self.patience = self.patience.saturating_sub(1);
            self.waiting &= self.patience > 0;
        }
    }

    /// Does what comes next of the hands, until keys are held. False at their end.
    fn act(&mut self) -> Result<bool> {
        while self.left == 0 && !self.waiting {
            match self.hands.pop_front() {
                Some(hands::Act::Hold(keys, time)) => {
                    (self.scan, self.left, self.waiting) = (scan_of(&keys), time, true);
                }
                Some(hands::Act::Cut) => {
                    self.device.cut();
                    self.replug()?;
                }
                Some(hands::Act::Tear(mask)) => self.device.tear(mask),
                Some(hands::Act::Say(text)) => print(text)?,
                Some(hands::Act::Leds) => print(format_args!("leds {:02x}", self.device.leds()))?,
                Some(hands::Act::Waits) => match self.device.waits() {
                    Some(count) => print(format_args!("waits {count}"))?,
                    None => print("waits -")?,
                },
                Some(hands::Act::End) => return Ok(false),
                None => break,
            }
        }
        Ok(true)
    }

    /// How many milliseconds are made at once: where no key moves and the host has all reports, some.
    fn milliseconds(&self) -> u64 {
        if self.hands.is_empty() && self.left == 0 && !self.waiting { 10 } else { 1 }
    }

    /// A millisecond. False at the end of what the hands do.
    fn millisecond(&mut self) -> Result<bool> {
        if !self.act()? {
            return Ok(false);
        }
        self.device.millisecond(self.scan);
        if let Some(kept) = &mut self.kept {
            kept.keep(self.device.image()).map_err(|error| named(kept.path.display(), error))?;
        }
        let polled = match self.host.as_mut().map(|host| &mut host.wire) {
            Some(Wire::Usbip(wire)) => wire.poll(&mut *self.device),
            Some(Wire::Usbredir(wire)) => wire.poll(&mut *self.device),
            Some(Wire::Function(wire)) => wire.poll(&mut *self.device),
            None => Ok(true),
        };
        self.pass(polled.as_ref().is_ok_and(|all| *all));
        self.keep(polled.map(drop));
        Ok(true)
    }

    /// The wire of this host, where it is still there, and the keyboard: something that it asked is taken.
    fn asking(&mut self, number: u32) -> (Option<&mut Wire>, &mut dyn OnBus) {
        let host = self.host.as_mut().filter(|host| host.number == number);
        let wire = host.map(|host| {
            let _ = host.asked.try_recv();
            &mut host.wire
        });
        (wire, &mut *self.device)
    }

    /// Takes what a host sent or did.
    fn take(&mut self, event: Event) -> Result<()> {
        match event {
            Event::Urb(number, urb) => {
                let taken = match self.asking(number) {
                    (Some(Wire::Usbip(wire)), device) => wire.take(urb, device),
                    _ => Ok(()),
                };
                self.met(taken)
            }
            Event::Message(number, message) => {
                let taken = match self.asking(number) {
                    (Some(Wire::Usbredir(wire)), device) => wire.take(message, device),
                    _ => Ok(()),
                };
                self.met(taken)
            }
            Event::Gone(number) => {
                if self.host.as_ref().is_some_and(|host| host.number == number) {
                    self.host = None;
                    print("the host has gone")?;
                }
                Ok(())
            }
            Event::Line(line) => {
                match hands::read(&line) {
                    Some(acts) => self.hands.extend(acts),
                    None => tell(format_args!("no such line: {line}")),
                }
                Ok(())
            }
            Event::Plugged(_) | Event::Guest(_) if self.host.is_some() => {
                tell("a second host was turned away: the keyboard is plugged in already");
                Ok(())
            }
            Event::Plugged(socket) => self.plug(Socket::Tcp(socket)),
            Event::Guest(socket) => self.guest(Socket::Pair(socket)),
        }
    }

    /// Runs until a line `end`.
    pub fn run(&mut self, events: Receiver<Event>) -> Result<()> {
        let mut next = Instant::now();
        loop {
            match events.recv_timeout(next.saturating_duration_since(Instant::now())) {
                Ok(event) => {
                    if matches!(event, Event::Line(_)) {
                        next = Instant::now();
                    }
                    self.take(event)?;
                }
                Err(RecvTimeoutError::Timeout) => {}
                Err(RecvTimeoutError::Disconnected) => return Ok(()),
            }
            // A host that always asks doesn't stop the keys, and they don't stop it: what is late is not made up for.
            if Instant::now() < next {
                continue;
            }
            let count = self.milliseconds();
            next = Instant::now().max(next + Duration::from_millis(count));
            for _ in 0..count {
                if !self.millisecond()? {
                    return Ok(());
                }
            }
        }
    }
}
