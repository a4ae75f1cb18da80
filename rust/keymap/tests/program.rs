// SPDX-License-Identifier: MIT OR Apache-2.0
//! The program `keymap` itself, where no keyboard is needed.
#![forbid(unsafe_code)]

use std::ffi::{OsStr, OsString};
use std::fs::File;
use std::os::unix::ffi::OsStrExt;
use std::process::{Command, Output};

fn keymap(words: &[&[u8]]) -> Command {
    let mut command = Command::new(env!("CARGO_BIN_EXE_keymap"));
    command.args(words.iter().map(|word| OsStr::from_bytes(word)));
    command
}

/// The status, and what standard error says.
fn told(ran: Output) -> (Option<i32>, String) {
    (ran.status.code(), String::from_utf8(ran.stderr).unwrap())
}

#[test]
fn words_that_are_no_text_are_refused() {
    for (words, status, error) in [
        (&[&b"\xff"[..]][..], 2, "no such command: \u{fffd}"),
        (&[b"-\xff"], 2, "-\u{fffd} is no option"),
        (&[b"--id", b"\xff", b"dump"], 2, "--id is four hex digits"),
        (&[b"get", b"\xff", b"0"], 2, "layer \u{fffd} (0 to 3), key 0 (0 to 95) is no entry"),
        (&[b"set", b"0", b"0", b"\xff"], 2, "is no code of four hex digits"),
        (&[b"dump", b"\xff"], 2, "the name is no text in UTF-8"),
        (&[b"--device", b"/nowhere/\xff", b"dump"], 1, "/nowhere/\u{fffd}: No such file"),
        (&[b"load", b"/nowhere/\xff"], 1, "/nowhere/\u{fffd}: No such file"),
    ] {
        let (code, said) = told(keymap(words).output().unwrap());
        assert_eq!(code, Some(status), "{said}");
        assert!(said.starts_with("keymap: ") && said.contains(error), "{said} has no {error}");
    }
}

#[test]
fn a_file_without_an_end_is_refused_at_its_limit() {
    // (A limit of its memory, so that a program without one of its own is told here.)
    let program = OsString::from(env!("CARGO_BIN_EXE_keymap"));
    let script = "ulimit -v 200000; exec \"$0\" load /dev/zero";
    let ran = Command::new("sh").args(["-c", script]).arg(program).output().unwrap();
    assert_eq!(told(ran), (Some(1), "keymap: /dev/zero: more than 65536 bytes\n".to_string()));
}

#[test]
fn what_cannot_be_written_is_no_panic() {
    let full = || File::options().write(true).open("/dev/full").unwrap();
    let status = |mut command: Command| command.status().unwrap().code();
    for (words, code) in [(&[&b"fly"[..]][..], 2), (&[b"load", b"/nowhere"], 1)] {
        let mut command = keymap(words);
        command.stderr(full());
        assert_eq!(status(command), Some(code));
    }
    let mut command = keymap(&[b"--help"]);
    command.stdout(full());
    let (code, said) = told(command.output().unwrap());
    assert_eq!((code, &said[..]), (Some(1), "keymap: standard output: No space left on device (os error 28)\n"));
}
