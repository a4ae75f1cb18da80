//! `read` and `write`: reports of files, pipes, recordings and devices, and settings by their names.

use super::{Folder, LED};
use std::fmt::Write;
use std::fs;
use wuzhikar_hid::UsageName;

/// A mouse of three bytes, as hid-recorder and usbhid-dump tell of it.
const MOUSE: &str = "05 01 09 02 a1 01 09 30 09 31 09 38 15 81 25 7f 75 08 95 03 81 06 c0";

#[test]
fn changes_are_by_the_last_report_of_an_id() {
    let folder = Folder::new("changes");
    let two = "05070901a101 8501 190029ff 26ff00 7508 9502 8100 8502 19e029e7 1500 2501 7501 9508 8102 c0";
    fs::write(folder.0.join("two"), two).unwrap();
    let reports = "01 04 00\n02 02\n01 04 05\n03\n02 00\n01 05 00\n01 05";
    let told = "1 +00070004\n2 +000700e1\n1 +00070005\nfault UnknownReport at 4\n2 -000700e1\n1 -00070004\nfault Short at 7\n";
    folder.ends(&format!("printf '{reports}' | $K read --changes two"), 1, told, "");
    folder.ends("echo 010500 | $K read --changes --names two", 0, "1 +\"Keyboard b and B\"\n", "");
    folder.ends("printf '\\1\\4\\5\\2\\0' | $K read --changes --raw two", 0, "1 +00070004 +00070005\n2\n", "");
    folder.ends("$K read --changes --json two", 2, "", "cannot be used with");
}

#[test]
fn settings_have_names_hex_and_units() {
    let folder = Folder::new("settings");
    // A hat of 45 degrees a step, X of 16 bits in hundredths, and Mute of two pages.
    let pad = "05010905a101 0939 15012508 3500463b01 6514 7504 9501 8142 7504 8103 0930 16018026ff7f 36018046ff7f 550e 6511 7510 8102";
    let two = "1500 2501 3500 4500 050c09e2 7501 9507 8102 05080909 9501 8102 c0";
    fs::write(folder.0.join("pad"), format!("{pad} {two}")).unwrap();
    for (settings, printed) in [
        ("'Hat Switch=unit:90'", "03000000\n"),
        ("'hat switch=unit:180/2' X=-0x7fff", "03018000\n"),
        ("00010039=0x3 X=unit:1.27", "037f0000\n"),
        ("f1[0]=unit:-127/100", "0081ff00\n"),
        ("000c00e2[6]=1", "00000040\n"),
    ] {
        folder.ends(&format!("$K write --kind input pad 0 {settings}"), 0, printed, "");
    }
    for (settings, fault) in [
        ("X=0 'Hat Switch=unit:91'", "NoStep 1"),
        ("'Hat Switch=unit:1/0'", "NoStep 0"),
        ("X=unit:1.275", "NoStep 0"),
        ("Wheel=1", "Unknown 0"),
        ("X=0 Mute=1", "Ambiguous 1"),
        ("Mute[7]=1", "Unknown 0"),
        ("'Hat Switch[1]=unit:0'", "Unknown 0"),
        ("X=0x8000", "TooLarge 0"),
    ] {
        folder.ends(&format!("$K write --kind input pad 0 {settings}"), 1, &format!("fault write {fault}\n"), "error: setting");
    }
}

#[test]
fn words_that_are_no_settings() {
    let folder = Folder::new("no-settings");
    fs::write(folder.0.join("led"), LED).unwrap();
    for word in [
        "X=",
        "=1",
        "X",
        "Nothing=1",
        "X=0x",
        "X=0x+1",
        "X=+1",
        "X=unit:",
        "X=unit:1/",
        "X=unit:1.-5",
        "X=1.5",
        "fX=1",
        "X[-1]=1",
    ] {
        folder.ends(&format!("$K write led 0 '{word}'"), 2, "", "is no setting");
    }
}

#[test]
fn a_recording_has_its_own_reports() {
    let folder = Folder::new("recordings");
    let recorded = format!(
        "# M\u{fc}ller\nR: 23 {MOUSE}\nN: M\u{fc}ller\nP: usb\nI: 3 046d c077\nD: 0\n# X: 5\n\
         E: 000000.000000 3 05 fd 00\nE: 000000.008 3 00 00\nE: x\nE: 000001.000000 3 00 00 ff\n"
    );
    let dumped = format!(
        "001:002:000:DESCRIPTOR         1303325321.298640\n {}\n {}\n\n\
         001:002:000:STREAM             1303325324.100210\n 05 fd\n 00\n\n001:002:000:STREAM 1.0\n 00 00 FF\n",
        &MOUSE[..30],
        &MOUSE[30..]
    );
    for (name, text) in [("recorded", recorded.as_bytes()), ("dumped", dumped.as_bytes()), ("mouse", MOUSE.as_bytes())] {
        fs::write(folder.0.join(name), text).unwrap();
    }
    let (first, last) = ("0 00010030=5 00010031=-3 00010038=0\n", "0 00010030=0 00010031=0 00010038=-1\n");
    let refused = format!("{first}fault Event at 9\nfault Event at 10\n{last}");
    let of = |path: &str| {
        let count = format!("{path}line 9, column 15: 3 is not the number of the bytes, which is 2\n");
        count + path + "line 10, column 4: x begins no line that the tool prints\n"
    };
    for words in ["recorded", "recorded recorded", "mouse recorded"] {
        folder.ends(&format!("$K read {words}"), 1, &refused, &of("recorded: "));
    }
    folder.ends("$K read --from hid-recorder - < recorded", 1, &refused, &of(""));
    for words in ["dumped", "dumped dumped", "mouse dumped", "--from auto dumped", "--from=usbhid-dump - < dumped"] {
        folder.ends(&format!("$K read {words}"), 0, &format!("{first}{last}"), "");
    }
    // Reports that are given go before its own, and those of another kind are not in it.
    folder.ends("echo 0000ff | $K read recorded -", 0, last, "");
    folder.ends("printf '\\0\\0\\377' | $K read --raw dumped", 0, last, "");
    for words in ["recorded", "dumped"] {
        folder.ends(&format!("$K read --kind feature {words}"), 0, "", "");
        folder.ends(&format!("$K write --kind input {words} 0 00010038=-1"), 0, "0000ff\n", "");
        folder.ends(&format!("$K parse --json {words} | grep -c version"), 0, "1\n", "");
    }
    for words in ["read - < recorded", "read --from hex - < recorded", "read --raw --from hid-recorder - < recorded"] {
        folder.ends(&format!("$K {words}"), 2, "", "can't be both");
    }
}

#[test]
fn a_block_of_usbhid_dump_that_is_damaged_is_refused_by_its_line() {
    let folder = Folder::new("blocks");
    fs::write(folder.0.join("mouse"), MOUSE).unwrap();
    let stream = "001:002:000:STREAM 1.0";
    let long = format!("{stream}\n{}\n{stream}\n 05 fd 00\n 1\n 00\n\n{stream}\n 00 00 FF", " 00 00\n".repeat(32_769));
    fs::write(folder.0.join("long"), long).unwrap();
    let printed = "fault LongReport at 32770\nfault Hex at 32774\n0 00010030=0 00010031=0 00010038=-1\n";
    folder.ends("$K read mouse long", 1, printed, "");
}

/// 32 KB of 256 fields with the same 1,024 buttons.
#[test]
fn a_name_is_looked_up_once() {
    let folder = Folder::new("names");
    let text = format!("0509 a101 2501 7501 960004 {} c0", "1901 2a0004 8102".repeat(256));
    fs::write(folder.0.join("text"), text).unwrap();
    for (option, said) in [("--json", "\"Button 1024\""), ("--names", "\"Button 1024\"=0")] {
        let read = format!("ulimit -t 6; head -c 32768 /dev/zero | $K read {option} --raw text | grep -o '{said}' | wc -l");
        folder.ends(&read, 0, "256\n", "");
    }
}

#[test]
fn a_value_that_is_cut_to_nothing_has_no_sign() {
    let folder = Folder::new("sign");
    // -127 to 127 are -1 to 1, in units of a millionth.
    fs::write(folder.0.join("text"), "05010930 1581257f 35ff4501 550a 6511 75089501 8102").unwrap();
    folder.ends("echo ff | $K read --json text | grep -o '\"decimal\":\"[^\"]*\"'", 0, "\"decimal\":\"0\"\n", "");
}

#[test]
fn a_device_is_read_live() {
    let folder = Folder::new("live");
    // A sysfs that names a plain file, of number 0:0, as a hidraw device: two reports of a key, and no more.
    let sysfs = "mkdir -p sys/dev/char/0:0/device; ln -s ../class/hidraw sys/dev/char/0:0/subsystem; mkfifo fifo
        printf '\\5\\7\\11\\4\\25\\0\\45\\1\\165\\10\\225\\1\\201\\2' > sys/dev/char/0:0/device/report_descriptor";
    folder.ends(sysfs, 0, "", "");
    let live = "export SYSFS_PATH=sys; (printf '\\1'; sleep 0.1; printf '\\0') > fifo & $K read --live";
    folder.ends(&format!("{live} fifo"), 0, "0 00070004=1\n0 00070004=0\n", "");
    folder.ends(&format!("{live} --changes fifo"), 0, "0 +00070004\n0 -00070004\n", "");
    folder.ends(&format!("{live} --names fifo | head -n 1"), 0, "0 \"Keyboard a and A\"=1\n", "");
    let broken = "printf '\\300' > sys/dev/char/0:0/device/report_descriptor; : > file; SYSFS_PATH=sys $K read --live file";
    folder.ends(broken, 1, "fault parse 8 at 0\n", "End Collection");
    folder.ends("$K read --live file", 1, "fault hidraw\n", "file is no hidraw device of Linux");
    folder.ends("$K read --live /dev/null", 1, "fault hidraw\n", "/dev/null is no hidraw device of Linux");
    folder.ends("$K read --live lacking", 1, "fault input\n", "error: lacking can't be opened");
    for words in ["--raw file", "--kind output file", "--from hex file", "file file", ""] {
        folder.ends(&format!("$K read --live {words}"), 2, "", "error: ");
    }
}

/// Names as `read --names` prints them, of usages that the tables know and of others.
#[test]
fn settings_take_the_names_that_are_read() {
    let folder = Folder::new("names-read");
    for page in [0x01_u32, 0x07, 0x09, 0x0c, 0xff00, 0x1234] {
        let [low, high] = (page as u16).to_le_bytes();
        let text = format!("06{low:02x}{high:02x} 1901 2a0004 1500 2501 7501 960004 8102");
        fs::write(folder.0.join("page"), text).unwrap();
        let (status, printed, _) = folder.ran("head -c 128 /dev/zero | tr '\\0' '\\377' | $K read --names --raw page");
        assert_eq!(status, Some(0));
        let names: Vec<&str> = printed.trim_start_matches("0 \"").trim_end_matches("\"=1\n").split("\"=1 \"").collect();
        assert_eq!(names[..], (1..=1024).map(|low| UsageName(page << 16 | low).to_string()).collect::<Vec<_>>());
        let given = names.iter().fold(String::new(), |mut given, name| {
            writeln!(given, "{name}=1").unwrap();
            given
        });
        fs::write(folder.0.join("given"), given).unwrap();
        let write = "mapfile -t given < given; $K write --kind input page 0 \"${given[@]}\"";
        folder.ends(write, 0, &format!("{}\n", "ff".repeat(128)), "");
    }
}

#[test]
fn what_is_there_is_said_of_what_is_not() {
    let folder = Folder::new("there");
    let leds = "0508 8501 19012903 1500 2501 7501 9503 9102 9505 9103 0600ff 7508 9502 9102 8507 9501 b102 c0";
    fs::write(folder.0.join("leds"), format!("05010906a101 {leds}")).unwrap();
    let there = "it has \"Num Lock\" to \"Scroll Lock\", f1[0] to f1[1]\n";
    for (settings, number) in [("00080004=1", 0), ("Caps\\ Lock=1 Kana=1", 1), ("f9=1", 0), ("Caps\\ Lock[1]=1", 0)] {
        folder.ends(&format!("$K write leds 1 {settings}"), 1, &format!("fault write Unknown {number}\n"), there);
    }
    for (words, reports) in [("leds 2", "--kind output 1, --kind feature 7\n"), ("--kind input leds 1", "--kind feature 7\n")] {
        folder.ends(&format!("$K write {words}"), 1, "fault write UnknownReport\n", reports);
    }
    folder.ends("$K write leds 1 'Num Lok=1'", 2, "", "Num Lok=1 is no setting; \"Num Lock\" is there\n");
    folder.ends("$K write leds 1 'scrol lock[0]=1'", 2, "", "; \"Scroll Lock\" is there\n");
    folder.ends("$K write leds 1 Numbers=1", 2, "", "Numbers=1 is no setting: 00080001=1");
    folder.ends("$K write lacking 1 'Num Lok=1'", 2, "", "Num Lok=1 is no setting: 00080001=1");
}

#[test]
fn a_report_that_is_too_short_says_how_long_it_is_to_be() {
    let folder = Folder::new("short");
    fs::write(folder.0.join("mouse"), MOUSE).unwrap();
    folder.ends("echo 0102 | $K read mouse", 1, "fault Short at 1\n", "line 1: the report has 2 of its 3 bytes\n");
    folder.ends(
        "printf '\\1\\2\\3\\4' | $K read --raw mouse",
        1,
        "0 00010030=1 00010031=2 00010038=3\nfault Short at 2\n",
        "report 2: the report has 1 of its 3 bytes\n",
    );
    let told = "{\"error\":\"Short\",\"found\":1,\"needed\":3,\"version\":1}\n";
    folder.ends(
        "echo 00 > reports; $K read --json mouse reports",
        1,
        told,
        "reports: line 1: the report has 1 of its 3 bytes\n",
    );
}

/// Packets of a mouse, and of another device of the same bus.
#[test]
fn packets_of_usbmon_are_of_one_address() {
    let folder = Folder::new("usbmon");
    fs::write(folder.0.join("mouse"), MOUSE).unwrap();
    let packet = |kind: &str, address: &str| format!("ffff8d2f5c0b3a80 2412345678 {kind}:{address} 0:8 3 = 0500 00\n");
    let own =
        [packet("C Ii", "1:003:1"), packet("C Ii", "1:003:1"), packet("S Io", "1:004:2"), packet("C Ci", "1:005:0")].concat();
    let mixed = own.clone() + &packet("C Ii", "1:004:1") + &packet("C Ii", "1:003:1");
    let interfaces = own.clone() + &packet("C Ii", "1:003:2");
    for (name, text) in [("own", own), ("mixed", mixed), ("interfaces", interfaces)] {
        fs::write(folder.0.join(name), text).unwrap();
    }
    let told = "0 00010030=5 00010031=0 00010038=0\n";
    folder.ends("$K read mouse < own", 0, &told.repeat(2), "");
    let said = "line 5: a packet of 1:004:1 behind those of 1:003:1; --address chooses one\n";
    folder.ends("$K read mouse < mixed", 1, &format!("{}fault address\n", told.repeat(2)), said);
    folder.ends("$K read mouse mixed", 1, &format!("{}fault address\n", told.repeat(2)), &format!("mixed: {said}"));
    folder.ends("$K read mouse interfaces --address 1:3", 1, &format!("{}fault address\n", told.repeat(2)), "1:003:2");
    for (words, count) in [
        ("1:003 mouse mixed", 3),
        ("1:3:1 mouse interfaces", 2),
        ("1:4 mouse mixed", 1),
        ("1:004:1 mouse mixed", 1),
        ("1:3:2 mouse interfaces", 1),
    ] {
        folder.ends(&format!("$K read --address {words}"), 0, &told.repeat(count), "");
    }
    folder.ends("$K read --address 2:3 mouse mixed", 0, "", "mixed: no packet of 2:003:0 with a report came\n");
    for words in
        ["--address 3", "--address 1:x", "--address 1:2:3:4", "--address +1:3", "--address 1:3 --raw", "--address 1:3 --live"]
    {
        folder.ends(&format!("$K read {words} mouse"), 2, "", "error: ");
    }
    // SET_REPORT goes to endpoint 0 of the same device.
    let set = "a 1 S Co:1:003:0 s 21 09 0200 0000 0001 1 = 03\na 1 S Io:1:003:2 -115:8 1 = 01\na 1 S Co:1:003:0 s 21 09 0200 0000 0001 1 = 02\n";
    fs::write(folder.0.join("led"), LED).unwrap();
    fs::write(folder.0.join("set"), set).unwrap();
    folder.ends("$K read --kind output led set", 0, "0 00080001=3\n0 00080001=1\n0 00080001=2\n", "");
    fs::write(folder.0.join("set"), format!("{set}a 1 S Io:1:003:3 -115:8 1 = 01\n")).unwrap();
    folder.ends("$K read --kind output led set | tail -n 1", 0, "fault address\n", "1:003:3 behind those of 1:003:2");
}

/// Of a recording beside its reports, the start of it is enough.
#[test]
fn long_recordings_have_a_descriptor_at_their_start() {
    let folder = Folder::new("long");
    let recorded = format!("R: 23 {MOUSE}\n{}", "E: 000000.000000 3 05 fd 00\n".repeat(50_000));
    let block = "001:002:000:STREAM             1303325324.100210\n 05 fd 00\n\n";
    let dumped = format!("001:002:000:DESCRIPTOR         1303325321.298640\n {MOUSE}\n\n{}", block.repeat(25_000));
    for (name, text, count) in [("recorded", recorded, "50000\n"), ("dumped", dumped, "25000\n")] {
        assert!(text.len() > 1_048_576);
        fs::write(folder.0.join(name), text).unwrap();
        folder.ends(&format!("$K read {name} {name} | grep -c '^0 00010030=5 00010031=-3 00010038=0$'"), 0, count, "");
        folder.ends(&format!("$K read {name}"), 1, "fault too long\n", &format!("{name}: the text is longer"));
    }
    fs::write(folder.0.join("hex"), " ".repeat(1_048_577)).unwrap();
    folder.ends("$K read hex dumped", 1, "fault too long\n", "hex: the text is longer");
}

/// In the lenient mode the faults before the one that ends the reading are passed over, in each way to print.
#[test]
fn faults_are_passed_over_in_each_way() {
    let folder = Folder::new("lenient");
    // A field of 33 bits, and one of 8; then two ends of collections, and between them another field of 33 bits.
    let good = "0600ff 0901 a101 0901 7521 9501 8102 0902 7508 8102 c0";
    fs::write(folder.0.join("good"), good).unwrap();
    fs::write(folder.0.join("bad"), format!("{good} c0 7521 8102")).unwrap();
    folder.ends("$K parse --lenient bad", 1, "passed 6 at 13\nfault parse 8 at 22\n", "bad: byte 22, item c0");
    folder.ends("$K parse --lenient --json bad", 1, "fault parse 8 at 22\n", "bad: byte 22, item c0");
    folder.ends("$K read --lenient --json bad good", 1, "fault parse 8 at 22\n", "");
    let items = "passed 6 at 13\n   0  06 00 ff        Usage Page (Vendor-defined FF00h)\n";
    folder.ends("$K parse --lenient --items good | head -n 2", 0, items, "");
    let fault = "  22  c0              End Collection  <-- fault 8: End Collection without Collection\nfault parse 8 at 22\n";
    folder.ends("$K parse --lenient --items bad | tail -n 2", 0, fault, "");
    let (status, printed, said) = folder.ran("$K parse --lenient --json good");
    assert_eq!((status, said.as_str()), (Some(0), ""));
    let told: serde_json::Value = serde_json::from_str(&printed).unwrap();
    assert_eq!(told["passed"], serde_json::json!([{"fault": 6, "offset": 13}]));
    let offsets: Vec<_> = told["fields"].as_array().unwrap().iter().map(|field| (&field["offset"], &field["size"])).collect();
    assert_eq!(offsets.last().unwrap(), &(&serde_json::json!(19), &serde_json::json!(8)));
    assert!(offsets[..offsets.len() - 1].iter().all(|(offset, _)| **offset == 13));
    folder.ends("echo '75089501 8102' | $K parse --lenient --json | grep -c '\"passed\": \\[\\]'", 0, "1\n", "");
    let read = "printf '0000000000\\n010203040506\\n' | $K read --lenient --json good 2>&1 | cut -c 1-60 | grep -v '^line'";
    folder.ends(read, 0, "{\"passed\":[{\"fault\":6,\"offset\":13}],\"version\":1}\n\
        {\"error\":\"Short\",\"found\":5,\"needed\":6,\"version\":1}\n{\"buffered\":[],\"id\":0,\"rest\":[],\"values\":[{\"field\":0,\"name\":\n", "");
}

/// 100,000 reports of a keyboard, in 3 seconds of the processor: a tree for each value would take twice as long.
#[test]
fn objects_are_written_straight_out() {
    let folder = Folder::new("straight");
    let keyboard = concat!(env!("CARGO_MANIFEST_DIR"), "/../../examples/hid_driver/keyboard.hex");
    folder.ends("yes 0200040000000000 | head -n 100000 > reports", 0, "", "");
    folder.ends(&format!("ulimit -t 3; $K read --json {keyboard} reports > /dev/null"), 0, "", "");
    let value = "{\"field\":2,\"name\":\"Keyboard a and A\",\"physical\":{\"decimal\":\"4\",\"denominator\":\"1\",\"exponent\":0,\
        \"numerator\":\"4\"},\"place\":0,\"usage\":458756,\"value\":4,\"within\":\"range\"}\n";
    folder.ends(
        &format!("head -n 1 reports | $K read --json {keyboard} | grep -o '{{\"field\":2[^}}]*}}[^}}]*}}' | head -n 1"),
        0,
        value,
        "",
    );
}
