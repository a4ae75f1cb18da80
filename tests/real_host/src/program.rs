// SPDX-License-Identifier: MIT OR Apache-2.0
//! The program around a keyboard on a bus: its words, the entry points of hosts, and the hands.

use crate::class::Class;
use crate::device::product;
use crate::file_flash::FileFlash;
use crate::kept::{Kept, kind_of};
use crate::on_bus::OnBus;
use crate::run::{Event, Run, named};
use crate::socket::Until;
use crate::{function, print, tell, usbip};
use std::ffi::{OsStr, OsString};
use std::io::{BufRead, Error, Result};
use std::net::TcpListener;
use std::os::unix::fs::FileTypeExt;
use std::os::unix::net::UnixListener;
use std::path::{Path, PathBuf};
use std::process::ExitCode;
use std::sync::mpsc::{Sender, channel};
use std::time::Duration;

const HELP: &str = "\
real_host [--packet 8|16|32|64] [--serial TEXT] [--image FILE] [--save FILE] [--slow MILLISECONDS] COMMAND

  attach           plugs the keyboard into this Linux (as root; modprobe vhci-hcd first)
  serve [ADDRESS]  serves usbip, at 127.0.0.1:3240 without an address, for usbip attach -r HOST -b 1-1
  guest SOCKET     speaks usbredir with QEMU at a socket of this name
  function FLASH FOLDER GADGET
                   is a function of this Linux, which keeps endpoint 0: FunctionFS is mounted at FOLDER, GADGET is the gadget's folder
                   in configfs, FLASH a file with a flash image, and a power loss ends the process (as root)

--packet is the packet size of endpoint 1 (16), --serial the serial number (0001). --image starts on a flash image of 2 to 8 pages of
4,096 bytes, in place of two erased pages; --save keeps the flash in a file, which may be the same. --slow is how long an operation
of function's flash takes (0).

Standard input has what the hands do, a line each. They go on when the host has taken the reports of the line before:
  type TEXT        taps the keys of these characters, on the default keymap and a host of the United States
  keys K..         holds these keys (0 to 95), until the next line that moves a key
  wait MILLISECONDS
  cut              the power goes and comes back
  tear MASK        the power goes inside the flash operation of the next command, as far as this mask lets it (docs/simulator.md)
  leds             prints the LEDs
  waits            prints how often packets of commands were told to wait, since the last such line
  say TEXT         prints it when all before is done
  end
";

/// Makes a keyboard of what the words ask for.
type Make<'m> = &'m dyn Fn(&Given) -> Result<Box<dyn OnBus>>;

/// What the words ask for.
pub struct Given {
    pub packet: usize,
    pub serial: Option<String>,
    pub image: Option<PathBuf>,
    pub save: Option<PathBuf>,
    slow: Duration,
    command: Vec<OsString>,
}

impl Given {
    fn read(words: impl Iterator<Item = OsString>) -> std::result::Result<Given, String> {
        let mut given =
            Given { packet: 16, serial: None, image: None, save: None, slow: Duration::ZERO, command: Vec::new() };
        let mut words = words.peekable();
        while let Some(option) = words.next_if(|word| word.as_encoded_bytes().starts_with(b"--")) {
            let option = option.to_string_lossy();
            let value = words.next().ok_or(format!("{option} wants a value"))?;
            match &option[..] {
                "--packet" => {
                    let size = value.to_str().and_then(|text| text.parse().ok()).filter(|size| [8, 16, 32, 64].contains(size));
                    given.packet = size.ok_or("--packet is 8, 16, 32 or 64")?;
                }
                "--serial" => given.serial = Some(value.into_string().map_err(|_| "--serial is no text in UTF-8")?),
                "--image" => given.image = Some(value.into()),
                "--save" => given.save = Some(value.into()),
                "--slow" => {
                    let milliseconds = value.to_str().and_then(|text| text.parse().ok());
                    given.slow = Duration::from_millis(milliseconds.ok_or("--slow is a number of milliseconds")?);
                }
                _ => return Err(format!("{option} is no option")),
            }
        }
        given.command = words.collect();
        Ok(given)
    }
}

/// How long a host may take to ask for the keyboard.
const GREETING: Duration = Duration::from_secs(5);

/// Takes hosts by usbip, until the program ends.
fn serve(address: &str, events: Sender<Event>) -> Result<()> {
    let listener = TcpListener::bind(address).map_err(|error| named(address, error))?;
    print(format_args!("usbip attach -r HOST -b {}  # {}", usbip::BUS_ID, listener.local_addr()?))?;
    std::thread::spawn(move || {
        for socket in listener.incoming().flatten() {
            // One that says nothing, or a byte now and then, keeps the others out for a short time only.
            let _ = socket.set_nodelay(true);
            let greeted = usbip::greet(&mut Until::after(&socket, GREETING));
            let _ = socket.set_read_timeout(None);
            match greeted {
                Ok(true) => {
                    if events.send(Event::Plugged(socket)).is_err() {
                        return;
                    }
                }
                Ok(false) => {}
                Err(error) => tell(error),
            }
        }
    });
    Ok(())
}

/// Takes away a socket of an earlier run. Anything else of this name stays.
fn clear(path: &Path) -> Result<()> {
    match kind_of(path)? {
        Some(kind) if kind.is_socket() => std::fs::remove_file(path),
        Some(_) => Err(Error::other("it is there, and is no socket")),
        None => Ok(()),
    }
}

/// Takes guests by usbredir, until the program ends.
fn guest(path: &Path, events: Sender<Event>) -> Result<()> {
    let bound = clear(path).and_then(|()| UnixListener::bind(path));
    let (path, listener) = (path.display(), bound.map_err(|error| named(path.display(), error))?);
    print(format_args!(
        "qemu-system-x86_64 -device qemu-xhci -chardev socket,id=kb,path={path} -device usb-redir,chardev=kb .."
    ))?;
    std::thread::spawn(move || {
        for socket in listener.incoming().flatten() {
            if events.send(Event::Guest(socket)).is_err() {
                return;
            }
        }
    });
    Ok(())
}

/// Reads lines, and then keeps the keyboard as it is.
fn listen(events: Sender<Event>) {
    std::thread::spawn(move || {
        for line in std::io::stdin().lock().lines().map_while(Result::ok) {
            if events.send(Event::Line(line)).is_err() {
                return;
            }
        }
    });
}

/// Runs the program with these words, on the keyboard that is made of what they ask for.
pub fn run<K: OnBus + 'static>(words: Vec<OsString>, make: impl Fn(&Given) -> Result<K>) -> ExitCode {
    let make = |given: &Given| make(given).map(|device| Box::new(device) as Box<dyn OnBus>);
    let ran = if words.iter().any(|word| word == "--help" || word == "-h") {
        Ok(print(HELP.trim_end()))
    } else {
        Given::read(words.into_iter()).and_then(|given| begin(&given, &make))
    };
    match ran {
        Ok(Ok(())) => ExitCode::SUCCESS,
        Ok(Err(error)) => {
            tell(error);
            ExitCode::FAILURE
        }
        Err(error) => {
            tell(format_args!("{error}\n\n{HELP}"));
            ExitCode::from(2)
        }
    }
}

/// Runs a command, or says what is wrong with its words.
fn begin(given: &Given, make: Make) -> std::result::Result<Result<()>, String> {
    let command = given.command.first().and_then(|word| word.to_str()).unwrap_or_default();
    Ok(match (command, given.command.get(1..).unwrap_or_default()) {
        ("attach", []) => go(given, make, |run, _| run.attach()),
        ("serve", []) => go(given, make, |_, events| serve("127.0.0.1:3240", events)),
        ("serve", [address]) => {
            let address = address.to_str().ok_or("the address is no text in UTF-8")?;
            go(given, make, |_, events| serve(address, events))
        }
        ("guest", [path]) => go(given, make, |_, events| guest(Path::new(path), events)),
        ("function", [flash, folder, gadget]) => function(given, Path::new(flash), Path::new(folder), Path::new(gadget)),
        _ if given.command.is_empty() => return Err("no command".to_string()),
        _ => return Err(format!("no such command: {}", given.command.join(OsStr::new(" ")).to_string_lossy())),
    })
}

/// A function of this Linux, on the flash in a file.
fn function(given: &Given, flash: &Path, folder: &Path, gadget: &Path) -> Result<()> {
    let product = product(given.packet, None);
    let make = |given: &Given| {
        let opened = FileFlash::open(flash, given.slow, || std::process::abort());
        let class = opened.and_then(|flash| Class::new(flash, product)).map_err(|error| named(flash.display(), error))?;
        Ok(Box::new(class) as Box<dyn OnBus>)
    };
    go(given, &make, |run, _| {
        let wire = function::Wire::plug(folder, gadget, product.descriptors().configuration);
        run.function(wire.map_err(|error| named(folder.display(), error))?);
        Ok(())
    })
}

fn go(given: &Given, make: Make, plug: impl FnOnce(&mut Run, Sender<Event>) -> Result<()>) -> Result<()> {
    let (events, received) = channel();
    let save = given.save.clone();
    let kept = save.map(|path| Kept::new(path.clone()).map_err(|error| named(path.display(), error))).transpose()?;
    let mut run = Run::new(make(given)?, kept, events.clone());
    plug(&mut run, events.clone())?;
    listen(events);
    run.run(received)
}
