//! Readers and writers that fail, and how many writes there are.

use kbsim::{LinesError, RunError, blank_flash, describe, image_flash, parse_text, print_fault, run_on, run_script};
use std::io::{self, ErrorKind, Read, Write};

/// Gives a text in pieces of so many bytes, and fails so after so many reads.
struct FailingReader<'a> {
    text: &'a [u8],
    most: usize,
    reads_left: usize,
    kind: ErrorKind,
}

impl Read for FailingReader<'_> {
    fn read(&mut self, bytes: &mut [u8]) -> io::Result<usize> {
        self.reads_left = self.reads_left.checked_sub(1).ok_or(io::Error::from(self.kind))?;
        let most = bytes.len().min(self.most);
        self.text.read(&mut bytes[..most])
    }
}

/// What a writer does at one of its writes.
#[derive(Clone, Copy, Debug)]
enum Then {
    Fails(ErrorKind),
    TakesNoByte,
}

/// Takes pieces of at most so many bytes, but at one of its writes none. After that it takes bytes again.
struct FailingWriter {
    taken: Vec<u8>,
    most: usize,
    writes: usize,
    fails_at: usize,
    then: Then,
}

impl FailingWriter {
    fn new(most: usize, fails_at: usize, then: Then) -> FailingWriter {
        FailingWriter { taken: Vec::new(), most, writes: 0, fails_at, then }
    }
}

impl Write for FailingWriter {
    fn write(&mut self, bytes: &[u8]) -> io::Result<usize> {
        self.writes += 1;
        match self.then {
            Then::Fails(kind) if self.writes - 1 == self.fails_at => return Err(kind.into()),
            Then::TakesNoByte if self.writes - 1 == self.fails_at => return Ok(0),
            _ => {}
        }
        let count = bytes.len().min(self.most);
        self.taken.extend(&bytes[..count]);
        Ok(count)
    }

    fn flush(&mut self) -> io::Result<()> {
        Ok(())
    }
}

/// The length of an image, whether its reader fails after it, and what comes of it. As a pipe does, the reader gives less than is
/// asked for; one byte more than the largest image has is the last that is read.
#[test]
fn the_lengths_of_images() {
    let image = Err(RunError::Image);
    let input = Err(RunError::Input);
    for (length, fails, wanted) in [
        (0, false, image),
        (4_096, false, image),
        (8_191, false, image),
        (8_192, false, Ok(8_192)),
        (8_193, false, image),
        (28_672, false, Ok(28_672)),
        (32_768, false, Ok(32_768)),
        (32_769, false, image),
        (1_000_000, false, image),
        (0, true, input),
        (1_000, true, input),
        (4_096, true, input),
        (8_192, true, input),
        (32_769, true, image),
    ] {
        let (bytes, reads_left) = (vec![255; length], if fails { length.div_ceil(1000) } else { usize::MAX });
        let mut reader = FailingReader { text: &bytes, most: 1000, reads_left, kind: ErrorKind::Other };
        assert_eq!(image_flash(&mut reader).map(|flash| flash.image().len()), wanted, "{length}");
        assert_eq!(reader.text.len(), length.saturating_sub(32_769), "{length}");
    }
}

#[test]
fn the_lines_of_faults() {
    for (fault, line) in [
        (RunError::Image, "fault image\n"),
        (RunError::Input, "fault input\n"),
        (RunError::Memory, "fault memory\n"),
        (RunError::PageCount, ""),
    ] {
        let mut printed = Vec::new();
        assert_eq!(print_fault(fault, &mut printed), fault);
        assert_eq!(String::from_utf8_lossy(&printed), line);
    }
}

fn printed_by(script: &str) -> String {
    let mut printed = Vec::new();
    let _ended = run_script(2, &mut script.as_bytes(), &mut printed);
    String::from_utf8(printed).expect("text")
}

/// The longest mask has 4,096 bytes.
#[test]
fn the_longest_mask() {
    assert_eq!(printed_by(&format!("cutwork {}", "a5".repeat(4096))), "1 restart\n");
    assert_eq!(printed_by(&format!("cutwork {}", "a5".repeat(4097))), "fault line 1: bad hex\n");
}

/// Scripts of each length around the multiples of a buffer, in pieces of five bytes, each of a comment and a last line.
#[test]
fn scripts_around_the_multiples_of_a_buffer() {
    for length in (1..6usize).flat_map(|multiple| 4096 * multiple - 3..4096 * multiple + 4) {
        let script = format!("#{}\nleds", "x".repeat(length - 6));
        let mut reader = FailingReader { text: script.as_bytes(), most: 5, reads_left: usize::MAX, kind: ErrorKind::Other };
        let mut printed = Vec::new();
        assert_eq!((run_script(2, &mut reader, &mut printed), &printed[..]), (Ok(()), &b"2 00\n"[..]), "{length}");
    }
}

/// 256 fields are printed in few writes, and none comes after one that failed.
#[test]
fn few_writes_and_none_after_one_that_failed() {
    let text = format!("75 01 95 01 {}", "81 02 ".repeat(256));
    let mut whole = FailingWriter::new(usize::MAX, usize::MAX, Then::TakesNoByte);
    assert_eq!(parse_text(&mut text.as_bytes(), &mut whole), Ok(()));
    assert!(whole.taken.len() > 4096 && whole.writes <= whole.taken.len() / 2048, "{} writes", whole.writes);
    for fails_at in 0..whole.writes {
        let mut writer = FailingWriter::new(usize::MAX, fails_at, Then::Fails(ErrorKind::Interrupted));
        assert_eq!(parse_text(&mut text.as_bytes(), &mut writer), Err(LinesError::Output));
        assert_eq!(writer.writes, fails_at + 1);
        assert!(whole.taken.starts_with(&writer.taken));
    }
}

/// A writer whose bytes never arrive.
struct NeverFlushed;

impl Write for NeverFlushed {
    fn write(&mut self, bytes: &[u8]) -> io::Result<usize> {
        Ok(bytes.len())
    }

    fn flush(&mut self) -> io::Result<()> {
        Err(ErrorKind::Other.into())
    }
}

#[test]
fn a_writer_that_does_not_flush() {
    let script = "entry 0 0\nset 0 0 0005\n";
    assert_eq!(run_script(2, &mut script.as_bytes(), &mut NeverFlushed), Err(RunError::Output));
    let flash = blank_flash(2).unwrap();
    assert_eq!(run_on(flash, &mut script.as_bytes(), &mut NeverFlushed).err(), Some(RunError::Output));
    assert_eq!(print_fault(RunError::Image, &mut NeverFlushed), RunError::Output);
    assert_eq!(parse_text(&mut "75 01".as_bytes(), &mut NeverFlushed), Err(LinesError::Output));
    assert_eq!(describe(&mut NeverFlushed), Err(LinesError::Output));
}

/// What is too long is told before the fault of the reader that comes behind it.
#[test]
fn the_longest_texts_of_a_reader_that_fails() {
    for (length, of_script, of_text, line) in [
        (1_048_576, RunError::Input, LinesError::Input, "fault input\n"),
        (1_048_577, RunError::TooLong, LinesError::TooLong, "fault too long\n"),
    ] {
        for (byte, is_script) in [(b'#', true), (b'0', false)] {
            let (text, mut printed) = (&*vec![byte; length], Vec::new());
            let fails = FailingReader { text: &[], most: 0, reads_left: 0, kind: ErrorKind::Other };
            let mut reader = text.chain(fails);
            if is_script {
                assert_eq!(run_script(2, &mut reader, &mut printed), Err(of_script));
            } else {
                assert_eq!(parse_text(&mut reader, &mut printed), Err(of_text));
            }
            assert_eq!(printed, line.as_bytes());
        }
    }
}
