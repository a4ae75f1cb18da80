//! The program on hostile words, texts and files: what it prints, what it says, how it ends, and that its memory is bounded.
#![cfg(unix)]

mod reports;

use std::ffi::OsStr;
use std::os::unix::ffi::OsStrExt;
use std::path::PathBuf;
use std::process::Command;
use std::{env, fs, process};

/// What a run ends with: its status, standard output and standard error.
pub type Ran = (Option<i32>, String, String);

/// A folder of a test's own.
pub struct Folder(PathBuf);

impl Folder {
    pub fn new(name: &str) -> Folder {
        let folder = env::temp_dir().join(format!("kbsim-{}-{name}", process::id()));
        fs::create_dir_all(&folder).unwrap();
        Folder(folder)
    }

    /// Runs a line of bash in it, in which `$K` is the program.
    pub fn ran(&self, line: impl AsRef<OsStr>) -> Ran {
        let mut bash = Command::new("bash");
        bash.arg("-c").arg(line).env("K", env!("CARGO_BIN_EXE_kbsim")).current_dir(&self.0);
        let out = bash.output().unwrap();
        let text = |bytes: &[u8]| String::from_utf8_lossy(bytes).into_owned();
        (out.status.code(), text(&out.stdout), text(&out.stderr))
    }

    /// A line ends with this status, prints this, and says this among others.
    #[track_caller]
    pub fn ends(&self, line: &str, status: i32, printed: &str, said: &str) {
        let ran = self.ran(line);
        assert_eq!((ran.0, ran.1.as_str()), (Some(status), printed), "{line}: {}", ran.2);
        assert!(ran.2.contains(said) && !ran.2.contains("panicked"), "{line}: {}", ran.2);
    }
}

impl Drop for Folder {
    fn drop(&mut self) {
        let _ = fs::remove_dir_all(&self.0);
    }
}

/// A place of 8 bits of an output report, and a usage.
pub const LED: &str = "0508 0901 26ff00 7508 9501 9102";

#[test]
fn options_in_both_spellings_take_one_word() {
    let folder = Folder::new("spellings");
    fs::write(folder.0.join("led"), LED).unwrap();
    for kind in ["--kind=output", "--kind output"] {
        folder.ends(&format!("echo 05 | $K read {kind} led"), 0, "0 00080001=5\n", "");
        folder.ends(&format!("$K write {kind} --onto=05 led 0"), 0, "05\n", "");
    }
    for from in ["--from=hex", "--from hex"] {
        folder.ends(&format!("$K parse {from} led"), 0, "output 0 0 8 1 0 255 variable 00080001\n", "");
        folder.ends(&format!("$K parse --json {from} led < /dev/null | grep -c Compose"), 1, "0\n", "");
    }
    for words in ["parse --json=1 led", "parse --items --json led", "read --kind", "read --kind lamp led", "read - -"] {
        folder.ends(&format!("$K {words}"), 2, "", "error: ");
    }
}

#[test]
fn words_need_not_be_text() {
    let folder = Folder::new("bytes");
    let name = OsStr::from_bytes(b"\xff.hex");
    fs::write(folder.0.join(name), LED).unwrap();
    folder.ends(r"$K parse $'\xff.hex'", 0, "output 0 0 8 1 0 255 variable 00080001\n", "");
    folder.ends(r"$K write $'\xff.hex' 0", 0, "00\n", "");
    folder.ends(r"echo leds | $K run --save $'\xff'; ls | wc -l", 0, "1 00\n2\n", "");
    folder.ends(r"$K parse --json $'\xfe'", 1, "fault input\n", "can't be opened");
    for words in [r"$'\xff'", r"parse --$'\xff'", r"run --pages $'\xff'", r"write $'\xff.hex' $'\xff'"] {
        folder.ends(&format!("$K {words}"), 2, "", "error: ");
    }
}

#[test]
fn numbers_have_digits_alone() {
    let folder = Folder::new("numbers");
    fs::write(folder.0.join("led"), LED).unwrap();
    folder.ends("$K write led 0 00080001=1", 0, "01\n", "");
    folder.ends("$K write led 0 'f0[0]=1'", 0, "01\n", "");
    for words in [
        "+0 00080001=1",
        "0 +0080001=1",
        "0 'f+0[0]=1'",
        "0 'f0[+0]=1'",
        "256 00080001=1",
        "0 00080001=+1",
        "0 Xx=1",
        "--onto 0 0",
    ] {
        folder.ends(&format!("$K write led {words}"), 2, "", "error: ");
    }
}

#[test]
fn what_can_not_be_said_or_printed_is_no_panic() {
    let folder = Folder::new("closed");
    fs::write(folder.0.join("led"), LED).unwrap();
    for words in ["read nothing", "write led 0 X=1", "parse --json nothing", "run nothing", "play", "run --pages 9"] {
        let (status, ..) = folder.ran(format!("$K {words} 2>/dev/full"));
        assert!(matches!(status, Some(1 | 2)), "{words}: {status:?}");
    }
    for words in ["--help", "describe", "parse --json led", "parse --details led", "write led 0", "read nothing"] {
        folder.ends(&format!("$K {words} >/dev/full"), 1, "", "error: the output can't be written");
    }
}

#[test]
fn a_descriptor_that_is_open_for_the_other_way_is_told() {
    let folder = Folder::new("descriptors");
    fs::write(folder.0.join("file"), "leds\n").unwrap();
    for words in ["run file", "describe", "--version", "parse --items --from bytes file"] {
        folder.ends(&format!("$K {words} 1<file"), 1, "", "error: the output can't be written");
    }
    folder.ends("$K run 0>>file", 1, "fault input\n", "the input can't be read");
    folder.ends("$K parse --json 0>>file", 1, "fault input\n", "the text can't be read");
    folder.ends("$K read <(echo 75089501 8102) 0>>file", 1, "fault input\n", "the reports can't be read");
}

#[test]
fn each_command_takes_the_same_texts() {
    let folder = Folder::new("texts");
    let hex: [&[u8]; 5] = [b"7508 9501\x0c8102", b"75\xc2\xa008", b"7508\x009501", b"7 50 8\t9501\r\n8102", b"x"];
    let arrays: [&[u8]; 14] = [
        b"0x75,8,0x95,1,129,2",
        b"{0x75,8,0x95,1,129,2,}",
        b"\xe9[]={117,8}\xff",
        b"u8 a[] /* { */ = {1",
        b"117,8,//",
        b"0x+75",
        b"{117,8}};",
        b"0x,1",
        b"075",
        b"117,,8",
        b"{117 8}",
        b"/*",
        b"1/*a*/17",
        b"{}",
    ];
    for (form, texts) in [("hex", &hex[..]), ("c", &arrays[..])] {
        for text in texts {
            fs::write(folder.0.join("text"), text).unwrap();
            let told = |words: &str| folder.ran(format!("$K {words} --from {form} text"));
            let (fields, tree) = (told("parse"), told("parse --details"));
            let shown = String::from_utf8_lossy(text);
            assert_eq!((fields.0, &fields.2), (tree.0, &tree.2), "{form} {shown}");
            assert_eq!(fields.1.contains("fault"), tree.1.contains("fault"), "{form} {shown}");
            let refused = told("read").1.contains(&format!("fault {form}\n"));
            assert_eq!(refused, fields.1.contains(&format!("fault {form}\n")), "{form} {shown}");
        }
    }
}

#[test]
fn each_form_has_its_name_on_the_command_line() {
    let folder = Folder::new("forms");
    for form in kbsim::texts::Form::ALL {
        assert_eq!(kbsim::texts::Form::named(form.name()), Some(form));
        let (status, printed, _) = folder.ran(format!("printf '\\1' | $K parse --from {}", form.name()));
        let told = if form.name() == "bytes" { "fault parse 1 at 0\n".into() } else { format!("fault {}\n", form.name()) };
        assert_eq!((status, printed), (Some(1), told));
    }
}

#[test]
fn memory_is_bounded() {
    let folder = Folder::new("memory");
    let limit = "ulimit -v 131072;";
    // 256 items of 1,024 places of a bit, and 60 of padding of 128 kilobytes each.
    let wide = format!("0600ff 0901 a101 2501 7501 960004{} c0", "8102".repeat(256));
    let long = format!("a101 760004 960004 {} c0", "8103".repeat(60));
    fs::write(folder.0.join("wide"), wide).unwrap();
    fs::write(folder.0.join("long"), long).unwrap();
    let read = format!("{limit} head -c 32768 /dev/zero | $K read --json --raw wide | grep -o decimal | wc -l");
    folder.ends(&read, 0, "262144\n", "");
    folder.ends(&format!("{limit} $K write --kind input long 0"), 1, "fault write TooLong\n", "7864320 bytes");
    let read = format!("{limit} head -c 7864321 /dev/zero | $K read --raw long");
    folder.ends(&read, 1, "fault LongReport at 1\nfault LongReport at 2\n", "");
    for words in ["parse --json", "parse --details", "parse --from bytes", "parse", "run", "write --kind input"] {
        let zero = if words.starts_with("write") { "/dev/zero 0" } else { "/dev/zero" };
        folder.ends(&format!("{limit} $K {words} {zero}"), 1, "fault too long\n", "is longer than 1048576 bytes");
    }
}

#[test]
fn each_data_item_is_in_the_object() {
    let folder = Folder::new("items");
    // Padding of size 0, an item of count 0 with usages on a page that is popped, and an item of a bit.
    let text = "0501 0902 a101 95018103 a4 050919012903 1501 2505 9500 7503 8102 b4 7501 0930 8102 c0";
    fs::write(folder.0.join("text"), text).unwrap();
    let (status, printed, said) = folder.ran("$K parse --json text");
    assert_eq!((status, said.as_str()), (Some(0), ""));
    let told: serde_json::Value = serde_json::from_str(&printed).unwrap();
    let seen: Vec<String> = (told["fields"].as_array().unwrap().iter())
        .map(|item| {
            format!(
                "{} {} {} {} {} {} {} {}",
                item["place"],
                item["field"],
                item["offset"],
                item["bit"],
                item["size"],
                item["count"],
                item["logical"],
                item["usages"][0]["last_name"]
            )
        })
        .collect();
    let wanted = ["0 null 8 0 0 1 [0,0] null", "1 null 25 0 3 0 [1,5] \"Button 3\"", "2 0 32 0 1 1 [0,0] \"X\""];
    assert_eq!(seen, wanted);
    assert_eq!(told["fields"][1]["collections"], serde_json::json!([0]));
    assert_eq!(told["reports"][0]["fields"], serde_json::json!([2]));
}

#[test]
fn a_flash_is_saved_in_a_regular_file_alone() {
    let folder = Folder::new("save");
    fs::create_dir(folder.0.join("folder")).unwrap();
    folder.ends("mkfifo fifo; ln -s nothing lost; ln -s /dev/null null; ln -s file link; echo a > file", 0, "", "");
    for (name, kind) in
        [("fifo", "a fifo"), ("folder", "a folder"), ("lost", "a link that leads nowhere"), ("null", "a device")]
    {
        let said = format!("error: the flash can't be saved: {name} is {kind}, and no regular file");
        folder.ends(&format!("echo leds | $K run --save {name}"), 1, "1 00\n", &said);
    }
    folder.ends("echo leds | $K run --save link; readlink link; wc -c < file", 0, "1 00\nfile\n8192\n", "");
    folder.ends(
        "echo leds | $K run --save new; wc -c < new; ls",
        0,
        "1 00\n8192\nfifo\nfile\nfolder\nlink\nlost\nnew\nnull\n",
        "",
    );
}
