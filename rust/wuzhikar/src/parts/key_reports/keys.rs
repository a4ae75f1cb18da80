// Exported from crates/key_reports/src/keys.rt by bin/export-rust. Edit that file instead.
//! The held keys after the edges of a scan, and the bytes of the reports for them.

use crate::parts::debounce::KeySet;
use crate::parts::layers::{Defaults, Held, KeyNo, KeymapOf};
use crate::parts::reports::{Poller, Protocol};

/// Takes the edges of a scan: the releases, then the presses, each by rising number.
pub(crate) fn take_edges<D: Defaults>(
    held: &mut Held,
    keymap: &KeymapOf<D>,
    released: &KeySet,
    pressed: &KeySet,
) {
    release_all(held, released);
    press_all(held, keymap, pressed);
    held.name_usages();
}

/// Releases these keys, by rising number.
fn release_all(held: &mut Held, released: &KeySet) {
    for key in released.keys() {
        held.release(KeyNo::known(key));
    }
}

/// Presses these keys, by rising number.
fn press_all<D: Defaults>(held: &mut Held, keymap: &KeymapOf<D>, pressed: &KeySet) {
    for key in pressed.keys() {
        held.press(keymap, KeyNo::known(key));
    }
}

/// Makes the bytes of the protocol's reports where those of the other protocol were made last.
pub(crate) fn make_for(poller: &mut Poller, held: &Held, protocol: Protocol) {
    if !poller.is_made_for(protocol) {
        make_anew(poller, held, protocol);
    }
}

/// Makes the bytes of the protocol's reports. Rare.
#[inline(never)]
fn make_anew(poller: &mut Poller, held: &Held, protocol: Protocol) {
    poller.make(held.lent(), protocol);
}
