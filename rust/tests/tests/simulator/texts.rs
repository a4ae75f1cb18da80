//! Texts of descriptors: each form of the same bytes reads the same, and no text takes a panic, much memory or much time.

use kbsim::texts::{Form, MOST, Why, taken};
use proptest::prelude::*;
use std::time::{Duration, Instant};

fn joined(bytes: &[u8], front: &str, between: &str) -> String {
    bytes.iter().map(|byte| format!("{front}{byte:02x}")).collect::<Vec<_>>().join(between)
}

fn characters(bytes: &[u8]) -> String {
    bytes.iter().map(|byte| if (b' '..=b'~').contains(byte) { char::from(*byte) } else { '.' }).collect()
}

/// Lines as `xxd -g GROUP -c WIDTH` prints them.
fn xxd(bytes: &[u8], group: usize, width: usize) -> String {
    let columns = 2 * width + width.div_ceil(group);
    let line = |(place, part): (usize, &[u8])| {
        let groups: Vec<String> = part.chunks(group).map(|bytes| joined(bytes, "", "")).collect();
        format!("{:08x}: {:columns$} {}\n", place * width, groups.join(" "), characters(part))
    };
    bytes.chunks(width).enumerate().map(line).collect()
}

/// Lines as `hexdump -C` prints them, with a `*` for lines that are equal to the one before.
fn hexdump(bytes: &[u8]) -> String {
    let (mut text, mut before, mut is_left_out): (String, &[u8], bool) = (String::new(), &[], false);
    for (place, part) in bytes.chunks(16).enumerate() {
        let is_same = part == before;
        if !is_same {
            let halves: Vec<String> = part.chunks(8).map(|half| joined(half, "", " ")).collect();
            text += &format!("{:08x}  {:48}  |{}|\n", place * 16, halves.join("  "), characters(part));
        } else if !is_left_out {
            text += "*\n";
        }
        (before, is_left_out) = (part, is_same);
    }
    if bytes.is_empty() { text } else { text + &format!("{:08x}\n", bytes.len()) }
}

/// Lines as usbhid-dump prints the bytes of a block.
fn block(bytes: &[u8]) -> String {
    bytes.chunks(16).map(|line| format!(" {}\n", joined(line, "", " ").to_uppercase())).collect()
}

/// The texts that tools and sources have for the same bytes.
fn texts(bytes: &[u8], group: usize, width: usize) -> Vec<(Form, String)> {
    let list = joined(bytes, "0x", ", ");
    let dump = format!("001:002:000:DESCRIPTOR         1303325321.298640\n{}\n", block(bytes));
    let recorded =
        format!("# M\u{fc}\nD: 0\nR: {} {}\nN: M\u{fc}\nE: 000000.000000 1 00\n", bytes.len(), joined(bytes, "", " "));
    vec![
        (Form::Hex, joined(bytes, "", " ")),
        (Form::C, format!("unsigned char d[] = {{\n  {list}\n}};\nunsigned int d_len = {};\n", bytes.len())),
        (Form::Rust, format!("#[rustfmt::skip]\npub const D: [u8; {}] = [ // {{0}}\n    {list}];\n", bytes.len())),
        (Form::C, format!("#include \"a/b.h\"\nint f(int a) {{ return a; }} // \u{2014}\nconst uint8_t d[] = {{ {list} }};\n")),
        (Form::Rust, format!("#![no_std]\nfn f(a: [u8; 2]) -> u8 {{ a[1] }}\nconst D: &[u8] = &[{list}];\nfn g() {{ 3 }}\n")),
        (Form::Xxd, xxd(bytes, group, width)),
        (Form::Hexdump, hexdump(bytes)),
        (Form::Rdesc, format!("{} \n\n  INPUT(1)[INPUT]\n    Field(0)\n\nKey.A ---> Key.B\n", joined(bytes, "", " "))),
        (Form::UsbhidDump, dump),
        (Form::HidRecorder, recorded),
    ]
}

/// What forms of texts are told by.
const MARKS: [&str; 38] = [
    "00000000: ",
    "00000000  ",
    "000000 ",
    "00000010",
    "*\n",
    "R: ",
    "R: 2 05 01\n",
    "E: 0.0 ",
    "D: 0\n",
    "1:2:3:STREAM 1\n",
    "1:2:3:DESCRIPTOR 1\n",
    " INPUT[",
    "|..|\n",
    "\n\n",
    "/*",
    "*/",
    "//",
    "0x",
    "{",
    "}",
    "#[",
    "[",
    "]",
    "=",
    ": ",
    ", ",
    "u8",
    "_",
    "  ",
    "\r\n",
    "\u{e4}",
    "\u{1}",
    "\u{feff}",
    "\"",
    "r#\"",
    "'",
    "\\",
    "#!",
];

/// Pieces of texts of which others are put together.
fn piece() -> impl Strategy<Value = String> {
    prop_oneof![prop::sample::select(&MARKS[..]).prop_map(String::from), "[0-9a-f ]{1,20}", "[\\x20-\\x7f]{1,4}"]
}

proptest! {
    #[test]
    fn each_form_of_the_same_bytes_reads_the_same(
        bytes in prop_oneof![
            prop::collection::vec(any::<u8>(), 1..80),
            (any::<u8>(), 1..200_usize).prop_map(|(byte, count)| vec![byte; count]),
        ],
        group in 1..5_usize,
        width in 1..40_usize,
    ) {
        for (form, text) in texts(&bytes, group, width) {
            prop_assert_eq!(form.read(text.as_bytes()), Ok(bytes.clone()), "{}", text);
            prop_assert_eq!(taken(text.as_bytes()), Ok((form, bytes.clone())), "{}", text);
            let marked = format!("\u{feff}{text}");
            prop_assert_eq!(taken(marked.as_bytes()), Ok((form, bytes.clone())), "{}", text);
            let wide: Vec<u8> = text.encode_utf16().flat_map(u16::to_le_bytes).collect();
            if text.is_ascii() && text.len() > 1 {
                prop_assert!(taken(&wide).is_err_and(|(_, fault)| fault.why == Why::Utf16), "{}", text);
            }
        }
        prop_assert_eq!(Form::Loose.read(joined(&bytes, "0x", " /* */ ").as_bytes()), Ok(bytes.clone()));
        prop_assert_eq!(Form::Bytes.read(&bytes), Ok(bytes));
    }

    #[test]
    fn no_text_is_a_panic_and_each_fault_stands_in_it(pieces in prop::collection::vec(piece(), 0..12)) {
        holds(pieces.concat().as_bytes());
    }

    #[test]
    fn no_change_of_a_text_is_a_panic(
        bytes in prop::collection::vec(any::<u8>(), 1..40),
        changes in prop::collection::vec((any::<prop::sample::Index>(), any::<u8>(), 0..3_usize), 1..4),
    ) {
        for (_, text) in texts(&bytes, 2, 16) {
            let mut text = text.into_bytes();
            for (place, byte, kind) in &changes {
                let at = place.index(text.len());
                match kind {
                    0 => text[at] = *byte,
                    1 => text.insert(at, *byte),
                    _ => text.truncate(at.max(1)),
                }
            }
            holds(&text);
        }
    }
}

/// Each form takes a text, or refuses it at a place in it.
fn holds(text: &[u8]) {
    let read = Form::ALL.into_iter().map(|form| form.read(text));
    for read in read.chain([taken(text).map(|(_, bytes)| bytes).map_err(|(_, fault)| fault)]) {
        match read {
            Ok(bytes) => assert!(bytes.len() <= MOST.max(text.len())),
            Err(fault) => assert!(fault.at <= text.len(), "{fault:?} in {:?}", String::from_utf8_lossy(text)),
        }
    }
}

#[test]
fn the_longest_texts_take_no_long_time() {
    let starts =
        ["", "00000000: ", "001:002:000:DESCRIPTOR 1\n", "R: 5 ", "[", "{", "#[", "05\n INPUT[\n", "00000000  05 |.|\n*\n"];
    let parts = [
        "0",
        " ",
        "/*",
        "/",
        "*",
        "[",
        "05 ",
        "0x05,",
        "//\n",
        "\n",
        "*\n",
        "#[]",
        "00000000: 05\n*\n",
        " 05\n",
        "|",
        "=",
        "\u{e4}",
        "D: 0\n",
        "[1,",
        "a[0,",
        "[]",
        "= {",
        "\"",
        "\\\"",
        "r#\"",
        "#\"",
        "'",
        "#\\\n",
    ];
    for (start, part) in starts.iter().flat_map(|start| parts.map(|part| (start, part))) {
        let text = format!("{start}{}", part.repeat(MOST / part.len()));
        let begun = Instant::now();
        holds(text.as_bytes());
        assert!(begun.elapsed() < Duration::from_secs(5), "{start:?} {part:?}: {:?}", begun.elapsed());
    }
}
