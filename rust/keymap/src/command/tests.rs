use super::*;
use crate::keyboard::REPORT;
use std::time::Duration;
use std::{fs, io};
use wuzhikar::{Mask, SimFlash};
use wuzhikar_device::{Device, Guarded, Keys, NotDone, Product, ScansMatrix, read, write};

/// A keyboard in memory, called as hidraw calls a real one. A stall is EPIPE, a cut of the power EPROTO.
struct Played {
    device: Device<'static, SimFlash>,
    /// The power goes in the first flash operation of the command after so many, which takes effect as far as a mask says.
    cut: Option<(usize, u8)>,
    sets: usize,
    paused: Duration,
}

impl Played {
    fn blank() -> Played {
        Played {
            device: Device::start(SimFlash::blank(2).unwrap(), &Product::TEST).unwrap(),
            cut: None,
            sets: 0,
            paused: Duration::ZERO,
        }
    }
}

impl Features for Played {
    fn set(&mut self, mut report: [u8; REPORT]) -> io::Result<()> {
        let command = report[1] != 0;
        let cut = self.cut.filter(|(behind, _)| command && *behind == self.sets);
        self.sets += usize::from(command);
        let ended = self.device.control_with([0x21, 9, 3, 3, 0, 0, 6, 0], &mut report, |device| {
            if let Some((_, mask)) = cut {
                device.flash_mut().fault_next(Mask::from_iter([mask]));
                let _ = device.work();
                device.flash_mut().disarm();
                device.restart();
                return std::ops::ControlFlow::Break(NotDone::Broken);
            }
            let _ = device.work();
            std::ops::ControlFlow::Continue(())
        });
        match ended {
            Ok(_) => Ok(()),
            Err(NotDone::Stall(_)) => Err(io::Error::from_raw_os_error(32)),
            Err(_) => Err(io::Error::from_raw_os_error(71)),
        }
    }

    fn get(&mut self, id: u8) -> io::Result<[u8; REPORT]> {
        let mut report = [0; REPORT];
        match self.device.control([0xa1, 1, id, 3, 0, 0, 6, 0], &mut report) {
            Ok(_) => Ok(report),
            Err(_) => Err(io::Error::from_raw_os_error(32)),
        }
    }

    fn pause(&mut self, time: Duration) {
        self.paused += time;
    }
}

fn words(line: &str) -> Vec<OsString> {
    line.split_whitespace().map(OsString::from).collect()
}

/// Runs a line, and returns what it prints, or the error.
fn run(played: &mut impl Features, line: &str) -> String {
    match Given::read(&words(line)) {
        Ok(Given::Run(run)) => match run.command.run(played) {
            Ok(Ran(text)) => text,
            Err(error) => error.to_string(),
        },
        Ok(Given::Help) => "help".to_string(),
        Err(error) => error,
    }
}

#[test]
fn entries_are_read_set_and_reset() {
    let mut played = Played::blank();
    let rows = [
        ("get 0 0", "0004\n"),
        ("set 0 0 0005", "stored\n"),
        ("set 3 95 40E9", "stored\n"),
        ("get 0 0", "0005\n"),
        ("get 3 95", "40e9\n"),
        ("reset 3", "stored\n"),
        ("get 3 95", "0001\n"),
        ("get 0 0", "0005\n"),
        ("reset", "stored\n"),
        ("get 0 0", "0004\n"),
    ];
    for (line, printed) in rows {
        assert_eq!(run(&mut played, line), printed, "{line}");
    }
}

#[test]
fn wrong_words_are_refused_before_the_keyboard_sees_them() {
    let mut played = Played::blank();
    for (line, error) in [
        ("", "no command"),
        ("get 0", "no such command: get 0"),
        ("get 4 0", "layer 4 (0 to 3), key 0 (0 to 95) is no entry"),
        ("get 0 96", "layer 0 (0 to 3), key 96 (0 to 95) is no entry"),
        ("get +1 0", "layer +1 (0 to 3), key 0 (0 to 95) is no entry"),
        ("set 0 0 5", "\"5\" is no code of four hex digits"),
        ("set 0 0 00a5", "\"00a5\" is no code of four hex digits"),
        ("--id 1209", "--id is four hex digits, a colon, and four"),
        ("--device", "--device names a file"),
        ("--fast get 0 0", "--fast is no option"),
        ("--help", "help"),
    ] {
        assert_eq!(run(&mut played, line), error);
    }
    assert_eq!(played.sets, 0);
    let given = Given::read(&words("--id 0AbC:1234 --device /dev/hidraw7 reset 2")).unwrap();
    let Given::Run(Run { which, command }) = given else { panic!() };
    assert_eq!(which, Which { device: Some("/dev/hidraw7".into()), id: Some((0x0abc, 0x1234)) });
    assert_eq!(command, Command::Reset(LayerNo::read(2).ok()));
}

#[test]
fn a_file_is_loaded_and_a_load_that_was_cut_is_taken_up() {
    let folder = std::env::temp_dir().join(format!("keymap-test-{}", std::process::id()));
    let mut played = Played::blank();
    for line in ["set 0 1 0010", "set 1 0 5001", "set 2 9 4001"] {
        run(&mut played, line);
    }
    let file = run(&mut played, "dump mine");
    fs::write(&folder, &file).unwrap();
    let load = format!("load {}", folder.display());
    assert_eq!(run(&mut played, &load), "0 entries differed, and are stored\n");
    // The power goes in the second of three, before and after what it stores. (The page has no header yet for the first.)
    for (mask, left) in [(0, 2), (0xff, 1)] {
        let mut other = Played::blank();
        other.cut = Some((1, mask));
        let error = run(&mut other, &load);
        assert!(error.contains("old one or the new one\n1 of 3 entries were set; the same load again"), "{error}");
        other.cut = None;
        assert_eq!(run(&mut other, &load), format!("{left} entries differed, and are stored\n"));
        assert_eq!(run(&mut other, "dump mine"), file);
    }
    // A file that is no keymap: nothing is sent.
    fs::write(&folder, file.replace("\"4001\"", "\"4000\"")).unwrap();
    let sets = played.sets;
    assert!(run(&mut played, &load).ends_with("\"4000\" of layer 2, key 9 is no code"));
    assert_eq!(played.sets, sets);
    fs::remove_file(&folder).unwrap();
    assert!(run(&mut played, &load).contains("No such file"));
}

#[test]
fn a_stall_says_what_it_may_mean() {
    // Both pages are not sound: each command is refused.
    let image = [0x00; 8192].to_vec();
    let mut played = Played::blank();
    played.device = Device::start(SimFlash::from_image(image).unwrap(), &Product::TEST).unwrap();
    let error = run(&mut played, "set 0 0 0005");
    assert!(
        error.contains("Broken pipe") && error.contains("is not sound, or used up") && error.ends_with("is as it was"),
        "{error}"
    );
    assert!(Duration::from_secs(5) <= played.paused && played.paused < Duration::from_secs(6), "{:?}", played.paused);
    assert_eq!(run(&mut played, "get 0 0"), "0004\n");
}

/// A keyboard with a pace, behind a stack that keeps endpoint 0: it has no NAK, so `Busy` is a stall, too.
struct Paced {
    keyboard: Guarded<Keys<SimFlash>>,
    paused: Duration,
}

impl Features for Paced {
    fn set(&mut self, report: [u8; REPORT]) -> io::Result<()> {
        write(&mut self.keyboard, [0x21, 9, 3, 3, 0, 0, 6, 0], &report, 388).map_err(|_| io::Error::from_raw_os_error(32))
    }

    fn get(&mut self, id: u8) -> io::Result<[u8; REPORT]> {
        let bytes = read(&mut self.keyboard, [0xa1, 1, id, 3, 0, 0, 6, 0]).unwrap();
        Ok(bytes[..].try_into().unwrap())
    }

    fn pause(&mut self, time: Duration) {
        for _ in 0..time.as_millis() {
            self.keyboard.scan([0; 6]);
        }
        self.paused += time;
    }
}

#[test]
fn a_load_goes_on_at_the_pace_of_the_keyboard() {
    let folder = std::env::temp_dir().join(format!("keymap-pace-{}", std::process::id()));
    let mut played = Played::blank();
    for key in 0..20 {
        run(&mut played, &format!("set 0 {key} 40e9"));
    }
    fs::write(&folder, run(&mut played, "dump")).unwrap();
    let load = format!("load {}", folder.display());
    for pace in [100, 1000, 4000] {
        let keys = Keys::start(SimFlash::blank(2).unwrap()).unwrap();
        let mut paced = Paced { keyboard: Guarded::new(keys, pace), paused: Duration::ZERO };
        assert_eq!(run(&mut paced, &load), "20 entries differed, and are stored\n", "pace {pace}");
        let (least, paused) = (20 * u128::from(pace), paced.paused.as_millis());
        assert!(least <= paused && paused < 2 * least, "pace {pace}: {paused} ms");
    }
    fs::remove_file(&folder).unwrap();
}

/// A keyboard whose selected entry another program moves before it is read.
struct Moved {
    played: Played,
    to: [u8; 3],
}

impl Features for Moved {
    fn set(&mut self, report: [u8; REPORT]) -> io::Result<()> {
        self.played.set(report)
    }

    fn get(&mut self, id: u8) -> io::Result<[u8; REPORT]> {
        let mut answer = self.played.get(id)?;
        answer[1..4].copy_from_slice(&self.to);
        Ok(answer)
    }

    fn pause(&mut self, time: Duration) {
        self.played.pause(time);
    }
}

#[test]
fn an_answer_for_another_entry_is_no_answer() {
    for (to, taken) in [([0, 1, 2], true), ([0, 1, 3], false), ([0, 2, 2], false), ([1, 1, 2], false)] {
        let mut moved = Moved { played: Played::blank(), to };
        let said = run(&mut moved, "get 1 2");
        assert_eq!(said == "0001\n", taken, "{said}");
        assert!(taken || said.starts_with("the keyboard answered [03, ") && said.ends_with("is no entry"), "{said}");
    }
}
