// Exported from crates/explanations/src/edges.rt by bin/export-rust. Edit that file instead.
//! Which keys a line pressed and released.

use wuzhikar::parts::debounce::{Debouncer, Scan};
use core::fmt;

/// So many equal scans decide: more of them change nothing.
const SAMPLES: u16 = 5;

/// The keys that became pressed and released.
#[derive(Clone, Copy, Debug)]
pub(crate) struct KeyChanges {
    pub(crate) pressed: Scan,
    pub(crate) released: Scan,
}

impl KeyChanges {
    /// No key.
    pub(crate) const NONE: KeyChanges = KeyChanges {
        pressed: Scan::NONE,
        released: Scan::NONE,
    };

    /// What `count` equal scans changed.
    pub(crate) fn of(debouncer: &mut Debouncer, scan: Scan, count: u16) -> KeyChanges {
        let mut changes = KeyChanges::NONE;
        for _again in 0..count.min(SAMPLES) {
            let edges = debouncer.feed(scan);
            changes.pressed = both(changes.pressed, edges.pressed);
            changes.released = both(changes.released, edges.released);
        }
        changes
    }
}

/// The keys of both scans.
fn both(one: Scan, other: Scan) -> Scan {
    let [a, b, c, d, e, f] = one.rows;
    let [g, h, i, j, k, l] = other.rows;
    Scan {
        rows: [a | g, b | h, c | i, d | j, e | k, f | l],
    }
}

/// Tells the changes of keys.
pub(crate) fn tell_changes(
    f: &mut fmt::Formatter<'_>,
    changes: KeyChanges,
) -> fmt::Result {
    let pressed = changes.pressed != Scan::NONE;
    let released = changes.released != Scan::NONE;
    if !pressed && !released {
        return f.write_str("no key changes");
    }
    if released {
        tell_keys(f, "released:", changes.released)?;
    }
    if pressed && released {
        f.write_str("; ")?;
    }
    if pressed {
        tell_keys(f, "pressed:", changes.pressed)?;
    }
    Ok(())
}

/// Tells the numbers of keys, behind a word.
fn tell_keys(f: &mut fmt::Formatter<'_>, word: &str, keys: Scan) -> fmt::Result {
    f.write_str(word)?;
    let mut first = true;
    for key in keys.keys() {
        f.write_str(if first { " " } else { ", " })?;
        write!(f, "key {key}")?;
        first = false;
    }
    Ok(())
}
