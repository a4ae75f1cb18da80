// SPDX-License-Identifier: MIT OR Apache-2.0
//! The man page, as roff. The texts of a help stand in it as they are.

use clap::{Arg, Command};

const HEAD: &str = r#".\" SPDX-License-Identifier: MIT OR Apache-2.0
.\" Written by tools/make/completions/make.
"#;

const HELP: &str = r"
.SS help
Prints the help of a command; so does the option \fB\-\-help\fR of each. \fBkbsim \-\-version\fR prints the version.
";

const TAIL: &str = r"
.SH EXAMPLES
.nf
kbsim run examples/stored_key.kbs
kbsim run \-\-explain examples/driver.kbs
kbsim run \-\-image old.img \-\-save new.img examples/migration.kbs
kbsim parse \-\-items examples/media_keys.hex
kbsim parse \-\-from bytes /sys/bus/hid/devices/DEVICE/report_descriptor
kbsim read \-\-live /dev/hidraw0
kbsim write examples/hid_driver/keyboard.hex 0 00080001=1
.fi
.SH SEE ALSO
The files \fIdocs/simulator.md\fR and \fIdocs/reader.md\fR of the repository.
";

/// The page of a program.
pub fn page(mut kbsim: Command) -> String {
    kbsim.build();
    let about = text_of(kbsim.get_about());
    let version = kbsim.get_version().unwrap_or_default();
    let mut page =
        format!("{HEAD}.TH KBSIM 1 \"\" \"kbsim {version}\" \"User Commands\"\n.SH NAME\nkbsim \\- {}\n", roff(&about));
    let commands: Vec<Command> = kbsim.get_subcommands().filter(|command| command.get_name() != "help").cloned().collect();
    page += ".SH SYNOPSIS\n";
    for command in &commands {
        page += format!(".B kbsim {}\n{}", command.get_name(), used(command)).trim_end();
        page += "\n.br\n";
    }
    page += ".SH COMMANDS\n";
    for command in &commands {
        page += &format!(".SS {}\n.nf\n{}\n.fi\n", command.get_name(), roff(&text_of(command.get_long_about())));
        command.get_arguments().filter(|arg| !is_always(arg)).for_each(|arg| page += &told(arg));
    }
    page += HELP.trim_start();
    let exits = text_of(kbsim.get_after_long_help());
    page + ".SH EXIT STATUS\n.nf\n" + &roff(exits.trim_start_matches("Exit status:\n")) + "\n.fi" + TAIL
}

fn text_of(text: Option<&impl ToString>) -> String {
    text.map(ToString::to_string).unwrap_or_default()
}

/// Whether each command has an option.
fn is_always(arg: &Arg) -> bool {
    matches!(arg.get_id().as_str(), "help" | "version")
}

/// What follows a command's name: its options, then its other words.
fn used(command: &Command) -> String {
    let all = command.get_arguments().filter(|arg| !is_always(arg));
    let one = |arg: &Arg| match (arg.is_required_set(), arg.get_num_args().is_some_and(|count| count.max_values() > 1)) {
        (true, _) => shown(arg),
        (false, more) => format!("[{}]{}", shown(arg), if more { "..." } else { "" }),
    };
    let (named, others): (Vec<&Arg>, Vec<&Arg>) = all.partition(|arg| arg.get_long().is_some());
    named.into_iter().chain(others).map(one).collect::<Vec<_>>().join(" ")
}

/// An option with its value, or a word.
fn shown(arg: &Arg) -> String {
    let values = arg.get_value_names().unwrap_or_default().iter().filter(|_| arg.get_action().takes_values());
    let value = values.map(|name| format!("\\fI{}\\fR", roff(name.as_str()))).collect::<Vec<_>>().join(" ");
    match arg.get_long() {
        Some(long) => format!("\\fB\\-\\-{long}\\fR {value}").trim_end().to_string(),
        None => value,
    }
}

/// What an option or a word is.
fn told(arg: &Arg) -> String {
    let mut told = text_of(arg.get_help());
    let defaults: Vec<_> = arg.get_default_values().iter().map(|value| value.to_string_lossy()).collect();
    let possible: Vec<_> = arg.get_possible_values().iter().map(|value| value.get_name().to_string()).collect();
    if arg.get_action().takes_values() {
        told += &[("default", defaults.join(", ")), ("possible values", possible.join(", "))]
            .iter()
            .filter(|(_, values)| !values.is_empty())
            .map(|(name, values)| format!(" [{name}: {values}]"))
            .collect::<String>();
    }
    format!(".TP\n{}\n{}\n", shown(arg), roff(&told))
}

/// A text in which roff sees no word of its own.
fn roff(text: &str) -> String {
    let lines = text.lines().map(|line| {
        let line = line.replace('\\', "\\e").replace('-', "\\-");
        if line.starts_with(['.', '\'']) { format!("\\&{line}") } else { line }
    });
    lines.collect::<Vec<_>>().join("\n")
}
