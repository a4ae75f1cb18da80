//! `write`: a report from values.

use super::ends::Ended;
use super::read::kind_of;
use super::texts::{bytes_of, descriptor_of};
use super::{files, words};
use clap::ArgMatches;
use std::ffi::OsString;
use std::io::Write;
use std::str::FromStr;
use wuzhikar_hid::{Asked, Kind, NoValue, Reader, Setting, Target, UsageName, WriteError, usages_named};

/// The most bytes that a control transfer has (USB 2.0, section 9.3.5).
const LONGEST: usize = 65_535;

const EXAMPLES: &str = "00080001=1, 'Num Lock=1', 00010039[1]=null, f2[0]=0x1f, 'X=unit:1/2'";

/// What a word names.
enum Control<'a> {
    Place(Target),
    /// A name of usages, and the place among what has one of them.
    Named(&'a str, usize),
}

/// What a control is set to.
enum Value {
    Asked(Asked),
    /// So much in the unit: a fraction.
    Unit(i64, u64),
}

/// A setting: `00080001=1`, `Num Lock=1`, `00010039[1]=null`, `f2[0]=0x1f`, `X=unit:1/2`.
fn setting(word: &str) -> Option<(Control<'_>, Value)> {
    let (control, value) = word.rsplit_once('=')?;
    // (There are names with brackets, as that of a key.)
    let placed = control.strip_suffix(']').and_then(|rest| rest.rsplit_once('['));
    let (name, place) = match placed.and_then(|(name, place)| Some((name, number(place)?))) {
        Some(placed) => placed,
        None => (control, 0),
    };
    Some((self::control(name, place)?, self::value(value)?))
}

/// A usage of eight hex digits, a field `f2`, or a name.
fn control(name: &str, place: usize) -> Option<Control<'_>> {
    if name.len() == 8 && name.bytes().all(|digit| digit.is_ascii_hexdigit()) {
        return Some(Control::Place(Target::Usage { usage: u32::from_str_radix(name, 16).ok()?, place }));
    }
    if let Some(digits) = name.strip_prefix('f').filter(|digits| digits.bytes().all(|digit| digit.is_ascii_digit())) {
        let field = number(digits).filter(|_| name.len() < 8)?;
        return Some(Control::Place(Target::Field { field, place }));
    }
    usages_named(name).next().map(|_| Control::Named(name, place))
}

/// A number, decimal or after `0x` in hex, a null, or a fraction of the unit: `unit:-1/3`, `unit:0.25`.
fn value(word: &str) -> Option<Value> {
    if matches!(word, "null" | "none") {
        return Some(Value::Asked(Asked::Null));
    }
    if let Some(fraction) = word.strip_prefix("unit:") {
        return self::fraction(fraction);
    }
    let (sign, digits) = word.strip_prefix('-').map_or(("", word), |digits| ("-", digits));
    let value = match digits.strip_prefix("0x") {
        Some(digits) if !digits.starts_with(['+', '-']) => i64::from_str_radix(&format!("{sign}{digits}"), 16).ok()?,
        Some(_) => return None,
        None => number(word)?,
    };
    Some(Value::Asked(Asked::Value(value)))
}

/// A fraction: `-1/3`, or a decimal of at most 18 digits after the point.
fn fraction(word: &str) -> Option<Value> {
    if let Some((above, below)) = word.split_once('/') {
        return Some(Value::Unit(number(above)?, number(below)?));
    }
    let (whole, behind) = word.split_once('.').unwrap_or((word, ""));
    let places = u32::try_from(behind.len()).ok().filter(|places| *places <= 18)?;
    let digits = behind.bytes().all(|digit| digit.is_ascii_digit());
    Some(Value::Unit(number(&format!("{whole}{behind}")).filter(|_| digits)?, 10u64.pow(places)))
}

/// A number of decimal digits, without a plus sign.
fn number<N: FromStr>(word: &str) -> Option<N> {
    if word.starts_with('+') { None } else { word.parse().ok() }
}

/// The most controls of a report that a sentence lists, and of whose names one may be meant.
const MOST_LISTED: usize = 32;
const MOST_MEANT: usize = 4_096;

/// The longest name that may be meant for another one.
const LONGEST_NAME: usize = 64;

/// What is written: the descriptor's reader, and which of its reports.
struct Report {
    reader: Reader,
    kind: Kind,
    id: u8,
}

impl Report {
    /// The setting with a number that a word asks for.
    fn settled(&self, number: usize, (control, value): (Control<'_>, Value)) -> Result<Setting, Ended> {
        let target = match control {
            Control::Place(target) => target,
            Control::Named(name, place) => self.named(number, name, place)?,
        };
        let asked = match value {
            Value::Asked(asked) => asked,
            Value::Unit(above, below) => Asked::Value(self.value_in_unit(number, target, above, below)?),
        };
        Ok(Setting { target, asked })
    }

    /// The control of the report that has a name; `Ambiguous` where usages of two pages have it and are there.
    fn named(&self, number: usize, name: &str, place: usize) -> Result<Target, Ended> {
        let mut found = None;
        for usage in usages_named(name) {
            let target = Target::Usage { usage, place };
            if self.field_of(target)?.is_some() && found.replace(target).is_some() {
                let sentence = format!("error: setting {number}: the report has several usages of the name {name}");
                return Err(Ended::fault(format!("fault write Ambiguous {number}"), sentence));
            }
        }
        found.ok_or_else(|| self.told(WriteError::Unknown(number)))
    }

    /// Returns the value of a control that is this fraction of its unit.
    fn value_in_unit(&self, number: usize, target: Target, above: i64, below: u64) -> Result<i64, Ended> {
        let field = self.field_of(target)?.ok_or_else(|| self.told(WriteError::Unknown(number)))?;
        let detail = self.reader.detail(field).ok_or_else(|| self.told(WriteError::Unknown(number)))?;
        detail.value_of(above, below).map_err(|why| {
            let name = match why {
                NoValue::NoPhysical(why) => format!("{why:?}"),
                NoValue::NoStep => "NoStep".to_string(),
            };
            Ended::fault(format!("fault write {name} {number}"), format!("error: setting {number}: {why}"))
        })
    }

    fn field_of(&self, target: Target) -> Result<Option<usize>, Ended> {
        self.reader.field_of(self.kind, self.id, target).map_err(|_| Ended::memory())
    }

    /// A refusal with its name, as `OutOfRange`, and the number of the setting or field after it. For a control or a report that is
    /// not there, its sentence lists those that are.
    fn told(&self, why: WriteError) -> Ended {
        let more = match why {
            WriteError::UnknownReport => format!("; it has {}", self.reports()),
            WriteError::Unknown(_) => format!("; it has {}", self.controls()),
            _ => String::new(),
        };
        Ended::fault(format!("fault write {why:?}").replace('(', " ").replace(')', ""), format!("error: {why}{more}"))
    }

    /// The reports of the descriptor.
    fn reports(&self) -> String {
        let all = self.reader.details().reports();
        listed(all.map(|report| format!("--kind {} {}", format!("{:?}", report.kind).to_lowercase(), report.id)))
    }

    /// The controls of the report.
    fn controls(&self) -> String {
        let descriptor = self.reader.descriptor();
        let own = (0..).zip(descriptor.fields()).filter(|(_, field)| (field.kind, field.id) == (self.kind, self.id));
        listed(own.flat_map(|(place, field)| match descriptor.ranges(place) {
            [] => vec![if field.count == 1 {
                format!("f{place}")
            } else {
                format!("f{place}[0] to f{place}[{}]", field.count - 1)
            }],
            ranges => ranges.iter().map(|(first, last)| named(*first, *last)).collect(),
        }))
    }

    /// The name of a control that may be meant by a word: the one that takes the fewest edits to come to, at most a third as many
    /// as the word has letters.
    fn meant(&self, word: &str) -> Option<String> {
        let control = word.rsplit_once('=')?.0.split('[').next().filter(|name| name.len() <= LONGEST_NAME)?.to_lowercase();
        let usages = self.reader.descriptor().report(self.kind, self.id).flat_map(|field| field.usages());
        let names = usages.take(MOST_MEANT).map(|usage| UsageName(usage).to_string());
        let near = names.map(|name| (strsim::levenshtein(&control, &name.to_lowercase()), name));
        near.filter(|(edits, _)| *edits <= control.len() / 3).min_by_key(|(edits, _)| *edits).map(|(_, name)| name)
    }
}

/// A range of usages by their names.
fn named(first: u32, last: u32) -> String {
    let more = if first == last { String::new() } else { format!(" to \"{}\"", UsageName(last)) };
    format!("\"{}\"{more}", UsageName(first))
}

/// What there is, in a sentence.
fn listed(mut all: impl Iterator<Item = String>) -> String {
    let listed: Vec<String> = all.by_ref().take(MOST_LISTED).collect();
    let more = if all.next().is_some() { " .." } else { "" };
    if listed.is_empty() { "none".into() } else { listed.join(", ") + more }
}

/// Prints the report in hex.
pub fn write(given: &ArgMatches) -> Result<(), Ended> {
    let refused = |why: String| Ended::from(words::refused("write", why));
    let word = |name| given.get_one::<String>(name).map_or("", String::as_str);
    let id: u8 = number(word("id")).ok_or_else(|| refused(format!("{} is no Report ID: 0 to 255", word("id"))))?;
    let onto = match given.get_one::<String>("onto") {
        Some(text) => Some(bytes_of(text.as_bytes()).ok_or_else(|| refused(format!("{text} is not pairs of hex digits")))?),
        None => None,
    };
    let report = || {
        let reader = descriptor_of(given.get_one::<OsString>("descriptor"), given)?.reader()?;
        Ok::<Report, Ended>(Report { reader, kind: kind_of(given), id })
    };
    let settings = given.get_many::<String>("settings").unwrap_or_default();
    let settings: Result<Vec<_>, _> = settings.map(|word| setting(word).ok_or(word)).collect();
    let settings = settings.map_err(|word| {
        let meant = report().ok().and_then(|report| report.meant(word));
        let more = meant.map_or_else(|| format!(": {EXAMPLES}"), |name| format!("; \"{name}\" is there"));
        refused(format!("{word} is no setting{more}"))
    })?;

    let report = report()?;
    match report.reader.descriptor().report_len(report.kind, id) {
        None => return Err(report.told(WriteError::UnknownReport)),
        Some(length) if length > LONGEST => {
            let sentence = format!("error: the report has {length} bytes, and a transfer at most {LONGEST}");
            return Err(Ended::fault("fault write TooLong", sentence));
        }
        Some(_) => {}
    }
    let settled =
        (0..).zip(settings).map(|(number, setting)| report.settled(number, setting)).collect::<Result<Vec<_>, _>>()?;
    let written = report.reader.write(report.kind, id, &settled, onto.as_deref()).map_err(|why| report.told(why))?;
    Ok(writeln!(files::output()?, "{}", hex::encode(written))?)
}
