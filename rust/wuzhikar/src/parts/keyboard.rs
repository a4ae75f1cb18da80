// Exported from crates/keyboard/src/lib.rt by bin/export-rust. Edit that file instead.
//! A keyboard: one device on any NOR flash.
//!
//! `Keyboard` puts the control endpoint, the keys with their reports, and the stored keymap together.
//! Each call is one event: a scan of the matrix, a packet of endpoint 0, a poll of endpoint 1, a step
//! of the flash work, a bus reset. The contracts say of each call what it is answered by the calls
//! since the start, newest first, and by the image of the flash that the keyboard started on. The
//! theorems say what follows for the keymap at each moment, also where the power is cut.
//!
//! `Room::take` takes the memory of the reports that wait, and no other call takes memory:
//! `Keyboard::start_in` reads the flash in that room and can't be refused. `Keyboard::start` is both.
//!
//! A `Keyboard` keeps its three parts, the protocol, the LEDs and the selected entry. The one
//! guarantee: an assignment that the host was told is stored outlives every cut, until a command is
//! accepted that would write its entry. A firmware calls it; the crate `kbsim` does on
//! a simulated flash.

mod feature;
mod keyboard;
mod room;
mod shown;

pub use crate::parts::control_ep::{EpAnswer, InAnswer, Why};
pub use wuzhikar_log::parts::flash_model::NorFlash;
pub use crate::parts::key_reports::{Protocol, Report, Scan};
pub use keyboard::{Keyboard, KeyboardOf};
pub use crate::parts::keymap_store::Work;
pub use room::Room;
