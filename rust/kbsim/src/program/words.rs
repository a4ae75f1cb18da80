//! The words of the command line, by `clap`: its commands and options with what their help says. The completions and the man page
//! are made of this one definition (tools/make/completions/make).

use clap::builder::ValueParser;
use clap::error::ErrorKind;
use clap::{Arg, ArgAction, Command, ValueHint, value_parser};
use std::fmt::Display;

/// The forms of the text of a report descriptor, by the names of `Form`, and the word for the one that is found.
pub const FORMS: [&str; 11] =
    ["hex", "c", "rust", "loose", "xxd", "hexdump", "rdesc", "usbhid-dump", "hid-recorder", "bytes", AUTO];

/// The word of `--from` that leaves the form to be found.
pub const AUTO: &str = "auto";

/// The kinds of reports.
pub const KINDS: [&str; 3] = ["input", "output", "feature"];

const EXITS: &str = "\
Exit status:
  0  all was done
  1  a fault, whose line is the last one on standard output, or a report was
     refused, or the output was, or the flash can't be saved
  2  the command line was refused";

const LOOKED_AT: &str = "How the descriptor's text says the bytes; it is told by what it looks like where nothing is said";

/// The command line.
pub fn kbsim() -> Command {
    Command::new("kbsim")
        .version(env!("CARGO_PKG_VERSION"))
        .about("A simulated keyboard whose keymap is kept in flash, and a reader of HID reports")
        .subcommand_required(true)
        .subcommands([run(), describe(), parse(), read(), write()])
        .after_long_help(EXITS)
}

fn run() -> Command {
    command("run", "Runs a script", include_str!("help/run.txt")).args([
        Arg::new("pages")
            .long("pages")
            .value_name("N")
            .value_parser(value_parser!(u8).range(2..=8))
            .default_value("2")
            .help("How many pages the flash has"),
        file("image", "Starts on a flash that holds the bytes of FILE").long("image").conflicts_with("pages"),
        file("save", "Writes the flash's bytes to FILE after a run without a fault").long("save"),
        flag("explain", "Says on standard error what each answer means"),
        text(),
    ])
}

fn describe() -> Command {
    let long = "\
Prints the keyboard's device, configuration and report descriptors, each on a
line of its own: its name, and its bytes as hex digits in lower case.
`kbsim parse` reads the digits of the last one.";
    command("describe", "Prints the keyboard's descriptors", long)
}

fn parse() -> Command {
    command("parse", "Prints the fields, or the items, of a report descriptor", include_str!("help/parse.txt")).args([
        form("How the text says the bytes; hex where nothing is said"),
        flag("items", "Prints each item, up to the first fault, in place of the fields")
            .conflicts_with_all(["details", "json"]),
        flag("details", "Prints a tree of collections and items, in words").conflicts_with("json"),
        flag("json", "Prints a JSON object"),
        lenient(),
        text(),
    ])
}

fn read() -> Command {
    command("read", "Tells the values in HID reports", include_str!("help/read.txt")).args([
        flag("names", "Usages by their names"),
        flag("json", "One JSON object a line; docs/reader.md has the schema"),
        flag("changes", "The usages that a report presses and releases, in place of its values").conflicts_with("json"),
        flag("raw", "The reports are bytes, and not lines"),
        flag("live", "DESCRIPTOR is a hidraw device, of which the descriptor and the reports are read")
            .conflicts_with_all(["raw", "kind", "from", "reports"]),
        lenient(),
        Arg::new("address")
            .long("address")
            .value_name("ADDRESS")
            .conflicts_with_all(["raw", "live"])
            .help("The packets of usbmon that are read, as BUS:DEVICE or BUS:DEVICE:ENDPOINT"),
        kind("The kind of the reports").default_value("input"),
        form(LOOKED_AT),
        descriptor(),
        file("reports", "The reports; without it those of a recording, or else standard input, as where it is -")
            .value_name("REPORTS"),
    ])
}

fn write() -> Command {
    command("write", "Prints a HID report in which controls are set", include_str!("help/write.txt")).args([
        kind("The kind of the report").default_value("output"),
        Arg::new("onto").long("onto").value_name("HEX").help("The report whose other bits stay"),
        form(LOOKED_AT),
        descriptor(),
        Arg::new("id").value_name("ID").required(true).help("The Report ID, 0 where none is used"),
        Arg::new("settings").value_name("CONTROL=VALUE").action(ArgAction::Append).num_args(0..).help("What is set"),
    ])
}

/// A command with its help.
fn command(name: &'static str, about: &'static str, long: &'static str) -> Command {
    Command::new(name).about(about).long_about(long.trim_end()).after_long_help(EXITS)
}

fn flag(name: &'static str, help: &'static str) -> Arg {
    Arg::new(name).long(name).action(ArgAction::SetTrue).help(help)
}

/// A path, of any bytes.
fn file(name: &'static str, help: &'static str) -> Arg {
    Arg::new(name).value_name("FILE").value_parser(ValueParser::os_string()).value_hint(ValueHint::FilePath).help(help)
}

/// The text that is read.
fn text() -> Arg {
    file("file", "What is read; standard input without it, or where it is -")
}

fn descriptor() -> Arg {
    file("descriptor", "The file of a report descriptor, or - for standard input").value_name("DESCRIPTOR").required(true)
}

fn lenient() -> Arg {
    flag("lenient", "Reads on past faults of the descriptor that Linux passes over, with a line for each")
}

fn form(help: &'static str) -> Arg {
    Arg::new("from").long("from").value_name("FORM").value_parser(FORMS).help(help)
}

fn kind(help: &'static str) -> Arg {
    Arg::new("kind").long("kind").value_name("KIND").value_parser(KINDS).help(help)
}

/// The refusal of a value that is wrong for a command.
pub fn refused(command: &str, why: impl Display) -> clap::Error {
    let mut kbsim = kbsim();
    kbsim.build();
    kbsim.find_subcommand_mut(command).expect("a command of kbsim").error(ErrorKind::ValueValidation, why)
}
