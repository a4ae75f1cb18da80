// SPDX-License-Identifier: MIT OR Apache-2.0
//! QEMU's machine "microbit" with the plugin `switch.so`: its process, its monitor, and its clock.

use std::fs::File;
use std::io::{BufRead, BufReader, Error, ErrorKind, Result, Write};
use std::os::unix::fs::FileExt;
use std::os::unix::net::{UnixListener, UnixStream};
use std::path::Path;
use std::process::{Child, Command, Stdio};
use std::time::Duration;

/// What the first page of the flash has: the vectors and the start-up.
const FIRST_PAGE: usize = 1024;

/// What Linux says of QEMU's threads.
pub struct Threads {
    /// For how long they ran and waited for a processor, in milliseconds.
    pub ran: u64,
    pub waited: u64,
    /// All of them wait for something other than a processor.
    asleep: bool,
}

pub struct Machine {
    qemu: Child,
    qmp: BufReader<UnixStream>,
    /// Two numbers that the plugin shares: its ticks, and how many orders it has been sent while the chip runs.
    clock: File,
    orders: u64,
}

/// The sockets of a machine, before it has connected.
pub struct Sockets {
    uart: UnixListener,
    switch: UnixListener,
    qmp: UnixListener,
}

impl Sockets {
    pub fn new(folder: &Path) -> Result<Sockets> {
        let listen = |name: &str| {
            let path = folder.join(name);
            let _ = std::fs::remove_file(&path);
            UnixListener::bind(path)
        };
        Ok(Sockets { uart: listen("uart")?, switch: listen("switch")?, qmp: listen("qmp")? })
    }
}

/// QEMU loads the first page alone, and the plugin the rest: what QEMU loads it copies and translates anew at each reset.
fn spawn(program: &[u8], plugin: &Path, folder: &Path) -> Result<Child> {
    let at = |name: &str| folder.join(name).display().to_string();
    std::fs::write(folder.join("program"), program)?;
    std::fs::write(folder.join("first"), &program[..program.len().min(FIRST_PAGE)])?;
    let switch = format!("{},rig={},clock={},program={}", plugin.display(), at("switch"), at("clock"), at("program"));
    Command::new("qemu-system-arm")
        .args(["-M", "microbit", "-nodefaults", "-display", "none", "-accel", "tcg,thread=single,tb-size=32"])
        .args(["-kernel", &at("first"), "-plugin", &switch])
        .args(["-chardev", &format!("socket,id=uart,path={}", at("uart")), "-serial", "chardev:uart"])
        .args(["-qmp", &format!("unix:{}", at("qmp"))])
        .stdin(Stdio::null())
        .spawn()
}

/// The connection that QEMU makes, unless it ends before.
fn accepted(listener: &UnixListener, qemu: &mut Child) -> Result<UnixStream> {
    listener.set_nonblocking(true)?;
    loop {
        match listener.accept() {
            Ok((stream, _)) => return Ok(stream),
            Err(error) if error.kind() != ErrorKind::WouldBlock => return Err(error),
            Err(_) => std::thread::sleep(Duration::from_millis(5)),
        }
        if let Some(status) = qemu.try_wait()? {
            return Err(Error::other(format!("it ended at its start, {status}")));
        }
    }
}

impl Machine {
    /// A machine that has connected: it, its UART, and its switch. The folder is no more needed then.
    pub fn start(program: &[u8], plugin: &Path, folder: &Path) -> Result<(Machine, UnixStream, UnixStream)> {
        std::fs::create_dir_all(folder)?;
        let sockets = Sockets::new(folder)?;
        let clock = File::options().read(true).write(true).create(true).truncate(true).open(folder.join("clock"))?;
        clock.set_len(4096)?;
        let mut qemu = spawn(program, plugin, folder)?;
        let (uart, switch) = (accepted(&sockets.uart, &mut qemu)?, accepted(&sockets.switch, &mut qemu)?);
        let qmp = BufReader::new(accepted(&sockets.qmp, &mut qemu)?);
        let mut machine = Machine { qemu, qmp, clock, orders: 0 };
        machine.qmp.read_line(&mut String::new())?;
        machine.ask("qmp_capabilities")?;
        Ok((machine, uart, switch))
    }

    /// Asks for a command without its answer.
    pub fn say(&mut self, command: &str) -> Result<()> {
        self.qmp.get_mut().write_all(format!("{{\"execute\":\"{command}\"}}\n").as_bytes())
    }

    /// The next answer.
    pub fn hear(&mut self) -> Result<String> {
        loop {
            let mut line = String::new();
            if self.qmp.read_line(&mut line)? == 0 {
                return Err(ErrorKind::UnexpectedEof.into());
            }
            if line.contains("\"return\"") {
                return Ok(line);
            }
        }
    }

    pub fn ask(&mut self, command: &str) -> Result<()> {
        self.say(command)?;
        self.hear().map(drop)
    }

    /// What QEMU's monitor says in answer to a line.
    pub fn monitor(&mut self, line: &str) -> Result<String> {
        let ask = format!(r#"{{"execute":"human-monitor-command","arguments":{{"command-line":"{line}"}}}}"#);
        self.qmp.get_mut().write_all(format!("{ask}\n").as_bytes())?;
        self.hear()
    }

    /// The guest's own time since the machine was made, in ticks: an instruction takes one, an operation of the flash what it is
    /// ordered to take. It stands still while the chip sleeps, and while the host gives QEMU no processor.
    pub fn ticks(&self) -> Result<u64> {
        let mut bytes = [0; 8];
        self.clock.read_exact_at(&mut bytes, 0)?;
        Ok(u64::from_le_bytes(bytes))
    }

    /// Announces an order to the plugin, which then waits for it.
    pub fn announce(&mut self) -> Result<()> {
        self.orders += 1;
        self.clock.write_all_at(&self.orders.to_le_bytes(), 8)
    }

    pub fn threads(&self) -> Threads {
        let tasks = std::fs::read_dir(format!("/proc/{}/task", self.qemu.id())).into_iter().flatten().flatten();
        let mut all = Threads { ran: 0, waited: 0, asleep: true };
        for task in tasks {
            let read = |name: &str| std::fs::read_to_string(task.path().join(name)).unwrap_or_default();
            let (stat, times) = (read("stat"), read("schedstat"));
            let mut times = times.split_whitespace().filter_map(|time| time.parse::<u64>().ok()).map(|time| time / 1_000_000);
            all.ran += times.next().unwrap_or(0);
            all.waited += times.next().unwrap_or(0);
            // The state stands behind the name, which is in brackets.
            all.asleep &= stat.rsplit(')').next().is_some_and(|rest| rest.trim_start().starts_with('S'));
        }
        all
    }

    /// Whether nothing goes on: QEMU has just answered, so that what was sent to it before has come; all of its threads then wait
    /// for something other than a processor; and the chip ran no instruction meanwhile. A host without a processor for QEMU, or one
    /// that stopped it, can't look like this.
    pub fn rests(&mut self) -> Result<bool> {
        let before = self.ticks()?;
        self.ask("query-status")?;
        std::thread::sleep(Duration::from_millis(1));
        Ok(self.threads().asleep && self.ticks()? == before)
    }

    /// Takes QEMU its processors now, and gives them back after so many seconds.
    pub fn stop(&self, seconds: u32) -> Result<()> {
        let script = r#"kill -s STOP "$1" || exit 1; { sleep "$2"; kill -s CONT "$1"; } >/dev/null 2>&1 &"#;
        let status =
            Command::new("sh").args(["-c", script, "-", &self.qemu.id().to_string(), &seconds.to_string()]).status()?;
        if status.success() { Ok(()) } else { Err(Error::other(format!("kill: {status}"))) }
    }
}

impl Drop for Machine {
    fn drop(&mut self) {
        let _ = self.qemu.kill();
        let _ = self.qemu.wait();
    }
}
