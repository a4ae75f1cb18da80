// SPDX-License-Identifier: MIT OR Apache-2.0
//! Hosts that behave and that don't, and the words of the program: after each of them the keyboard lives on.

use crate::program::*;
use std::ffi::OsStr;
use std::io::{Read, Write};
use std::net::TcpStream;
use std::os::unix::ffi::OsStrExt;
use std::os::unix::net::UnixListener;
use std::path::{Path, PathBuf};
use std::process::{Command, Stdio};
use std::time::Duration;

#[test]
fn a_second_host_is_turned_away() {
    let program = Program::start(&[]);
    let (mut host, given) = program.import("1-1");
    assert!(given && control(&mut host, [0x80, 6, 0, 1, 0, 0, 18, 0], 18, &[]).1.len() == 18);
    assert_eq!((set(&mut host, 5), get(&mut host)), (0, 5));
    // A second one is turned away, and the first one goes on.
    let (mut second, _) = program.import("1-1");
    assert!(is_closed(&mut second));
    Program::says(&program.err, "a second host was turned away");
    program.end();
}

#[test]
fn hosts_come_and_go_and_the_keyboard_lives_on() {
    let program = Program::start(&[]);
    let (mut host, _) = program.import("1-1");
    assert_eq!(set(&mut host, 5), 0);
    // A wrong length.
    assert_eq!(control(&mut host, SET, 2, &[3, 1]).0, EINVAL);
    Program::says(&program.err, "an URB of 2 bytes for the request");
    assert_eq!((get(&mut host), control(&mut host, SET, 6, &[3, 1, 4, 0, 5, 0]).0), (5, EPIPE));
    // What is no URB.
    host.write_all(&[9; 48]).unwrap();
    assert!(is_closed(&mut host));
    Program::says(&program.err, "no command of usbip: 09090909");
    Program::says(&program.out, "the host has gone");
    // One that vanishes inside an URB.
    let (mut host, _) = program.import("1-1");
    assert_eq!(get(&mut host), 5);
    host.write_all(&urb(SET, 6)[..20]).unwrap();
    drop(host);
    Program::says(&program.out, "the host has gone");
    // One that asks for another device, and what is no host.
    assert!(!program.import("1-2").1);
    let mut other = TcpStream::connect(&program.address).unwrap();
    other.write_all(b"GET / HTTP/1.1\r\n\r\n").unwrap();
    assert!(is_closed(&mut other));
    Program::says(&program.err, "no request of usbip");
    program.end();
}

#[test]
fn power_that_goes_inside_a_command_leaves_the_old_entry() {
    let mut program = Program::start(&[]);
    let (mut host, _) = program.import("1-1");
    assert_eq!(set(&mut host, 5), 0);
    configure(&mut host);
    poll(&mut host, 64);
    program.hands("tear 0f");
    program.hands("say armed");
    Program::says(&program.out, "armed");
    assert_eq!(set(&mut host, 6), EPROTO);
    Program::says(&program.out, "restart");
    assert!(is_closed(&mut host));
    let (mut host, _) = program.import("1-1");
    assert_eq!(get(&mut host), 5);
    program.hands("keys 96");
    Program::says(&program.err, "no such line: keys 96");
    program.end();
}

#[test]
fn a_slow_host_gets_each_report() {
    let mut program = Program::start(&["--packet", "64"]);
    let (mut host, _) = program.import("1-1");
    configure(&mut host);
    let letters = "abcdefghijklmnopqrstuvwxyz";
    program.hands(&format!("type {letters}"));
    program.hands("say typed");
    let mut down = Vec::new();
    for _ in 0..2 * letters.len() {
        std::thread::sleep(Duration::from_millis(25));
        poll(&mut host, 64);
        let mut answer = [0; 48 + 23];
        host.read_exact(&mut answer).unwrap();
        down.extend((0..160).filter(|bit| answer[48 + 2 + bit / 8] >> (bit % 8) & 1 != 0).map(|bit| bit as u8 + b'a'));
    }
    poll(&mut host, 64);
    Program::says(&program.out, "typed");
    assert_eq!(String::from_utf8(down).unwrap(), letters);
    program.end();
}

#[test]
fn a_command_waits_and_the_serial_number_is_chosen() {
    let mut program = Program::start(&["--serial", "x7"]);
    let (mut host, _) = program.import("1-1");
    configure(&mut host);
    poll(&mut host, 64);
    assert_eq!(control(&mut host, [0x80, 6, 3, 3, 9, 4, 255, 0], 255, &[]).1, [6, 3, b'x', 0, b'7', 0]);
    // On a blank flash a header is written, and the record; then a record alone; then nothing.
    for (code, waits) in [(5, 2), (6, 1), (6, 0)] {
        assert_eq!(set(&mut host, code), 0);
        program.hands("waits");
        Program::says(&program.out, &format!("waits {waits}"));
    }
    program.end();
}

#[test]
fn the_flash_is_kept_in_a_file() {
    let path = PathBuf::from(env!("CARGO_TARGET_TMPDIR")).join(format!("flash-{}", std::process::id()));
    let file = path.to_str().unwrap();
    let program = Program::start(&["--save", file]);
    let (mut host, _) = program.import("1-1");
    assert_eq!(set(&mut host, 7), 0);
    drop(host);
    Program::says(&program.out, "the host has gone");
    program.end();
    assert_eq!(std::fs::read(&path).unwrap().len(), 8192);
    let program = Program::start(&["--image", file, "--packet", "64"]);
    let (mut host, _) = program.import("1-1");
    assert_eq!(get(&mut host), 7);
    program.end();
    std::fs::write(&path, [0; 4096]).unwrap();
    for (words, error) in [
        (&["--image", file, "attach"][..], "2 to 8"),
        (&["--image", "/nowhere", "attach"], "/nowhere: "),
        (&["--image", "/dev/zero", "attach"], "/dev/zero: "),
        (&["--packet", "9", "attach"], "--packet is 8, 16, 32 or 64"),
        (&["--fast", "1", "attach"], "--fast is no option"),
        (&["fly"], "no such command: fly"),
        (&[], "no command"),
    ] {
        let ran = Command::new(env!("CARGO_BIN_EXE_real_host")).args(words).output().unwrap();
        let told = String::from_utf8(ran.stderr).unwrap();
        assert!(!ran.status.success() && told.starts_with("real_host: ") && told.contains(error), "{told}");
    }
    std::fs::remove_file(&path).unwrap();
}

/// A file that nothing can be written to.
fn full() -> Stdio {
    std::fs::File::options().write(true).open("/dev/full").unwrap().into()
}

fn program(words: &[&[u8]]) -> Command {
    let mut command = Command::new(env!("CARGO_BIN_EXE_real_host"));
    command.args(words.iter().map(|word| OsStr::from_bytes(word))).stdin(Stdio::null());
    command
}

#[test]
fn words_that_are_no_text_are_refused() {
    for (words, status, error) in [
        (&[&b"\xff"[..]][..], 2, "no such command: \u{fffd}"),
        (&[b"--\xff", b"1", b"attach"], 2, "--\u{fffd} is no option"),
        (&[b"--packet", b"\xff", b"attach"], 2, "--packet is 8, 16, 32 or 64"),
        (&[b"--serial", b"\xff", b"attach"], 2, "--serial is no text in UTF-8"),
        (&[b"serve", b"\xff"], 2, "the address is no text in UTF-8"),
        (&[b"--image", b"/nowhere/\xff", b"attach"], 1, "/nowhere/\u{fffd}: No such file"),
        (&[b"guest", b"/nowhere/\xff"], 1, "/nowhere/\u{fffd}: No such file"),
    ] {
        let ran = program(words).output().unwrap();
        let told = String::from_utf8(ran.stderr).unwrap();
        assert_eq!(ran.status.code(), Some(status), "{told}");
        assert!(told.starts_with("real_host: ") && told.contains(error), "{told} has no {error}");
    }
}

#[test]
fn what_cannot_be_written_is_no_panic() {
    for (words, code) in [(&[&b"fly"[..]][..], 2), (&[b"--image", b"/nowhere", b"attach"], 1)] {
        assert_eq!(program(words).stderr(full()).status().unwrap().code(), Some(code));
    }
    for words in [&[&b"--help"[..]][..], &[b"serve", b"127.0.0.1:0"]] {
        let ran = program(words).stdout(full()).output().unwrap();
        let told = "real_host: standard output: No space left on device (os error 28)\n";
        assert_eq!((ran.status.code(), &String::from_utf8(ran.stderr).unwrap()[..]), (Some(1), told));
    }
    // Where it runs: what hosts did and what the hands say wrongly is told to nobody, and it goes on.
    let mut child =
        program(&[b"serve", b"127.0.0.1:0"]).stdin(Stdio::piped()).stdout(Stdio::piped()).stderr(full()).spawn().unwrap();
    let out = lines(child.stdout.take().unwrap());
    let address = out.recv_timeout(PATIENCE).unwrap().split("# ").nth(1).unwrap().to_string();
    for _ in 0..2 {
        let mut other = TcpStream::connect(&address).unwrap();
        other.write_all(b"GET / HTTP/1.1\r\n\r\n").unwrap();
        assert!(is_closed(&mut other));
    }
    write!(child.stdin.as_mut().unwrap(), "fly\nsay it goes on\nend\n").unwrap();
    Program::says(&out, "it goes on");
    assert!(child.wait().unwrap().success());
}

#[test]
fn a_path_replaces_nothing_of_another_kind() {
    let folder = PathBuf::from(env!("CARGO_TARGET_TMPDIR")).join(format!("guest-{}", std::process::id()));
    std::fs::create_dir(&folder).unwrap();
    let (file, link, socket) = (folder.join("file"), folder.join("link"), folder.join("socket"));
    std::fs::write(&file, "kept").unwrap();
    std::os::unix::fs::symlink(&file, &link).unwrap();
    drop(UnixListener::bind(&socket).unwrap());
    let guest = |path: &Path, lines: &[u8]| {
        let mut child =
            program(&[b"guest", path.as_os_str().as_bytes()]).stdin(Stdio::piped()).stderr(Stdio::piped()).spawn().unwrap();
        let _ = child.stdin.as_mut().unwrap().write_all(lines); // one that refuses is gone by then
        child.wait_with_output().unwrap()
    };
    for path in [&file, &link, &folder] {
        let ran = guest(path, b"end\n");
        let told = format!("real_host: {}: it is there, and is no socket\n", path.display());
        assert_eq!((ran.status.code(), String::from_utf8(ran.stderr).unwrap()), (Some(1), told));
    }
    // What the flash is kept in is a regular file too, or a new one.
    for path in [&link, &socket, &folder] {
        let ran = program(&[b"--save", path.as_os_str().as_bytes(), b"serve", b"127.0.0.1:0"]).output().unwrap();
        let told = format!("real_host: {}: it is there, and is no regular file\n", path.display());
        assert_eq!((ran.status.code(), String::from_utf8(ran.stderr).unwrap()), (Some(1), told));
    }
    // A file that holds no flash stays, and so does one beside the flash's own.
    let (flash, part) = (folder.join("flash"), folder.join("flash.part"));
    std::fs::write(&part, "another's").unwrap();
    for (path, error) in [
        (&file, format!("{}: it is there, and holds no flash", file.display())),
        (&flash, format!("{}: {}: File exists (os error 17)", flash.display(), part.display())),
    ] {
        let ran = program(&[b"--save", path.as_os_str().as_bytes(), b"serve", b"127.0.0.1:0"]).output().unwrap();
        let told = format!("real_host: {error}\n");
        assert_eq!((ran.status.code(), String::from_utf8(ran.stderr).unwrap()), (Some(1), told));
    }
    assert_eq!((std::fs::read(&link).unwrap(), std::fs::read(&part).unwrap()), (b"kept".to_vec(), b"another's".to_vec()));
    assert!(guest(&socket, b"end\n").status.success());
    std::fs::remove_dir_all(&folder).unwrap();
}
