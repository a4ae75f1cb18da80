// Exported from crates/world/src/lib.rt by bin/export-rust. Edit that file instead.
//! A keyboard, its host and its flash, as keys, bus and power supply see them: a list of events, each
//! with its answer.
//!
//! `World` holds a `Keyboard`, a `Host` and a `SimFlash`, and `World::run` hands events on, tears
//! flash operations and cuts the power. The contract of `run` says, for every list of events on every
//! image, what each answer is by what came before it, what the host reads in each report, and what a
//! power cut may leave of the keymap. The theorems say what follows for every history, for each of its
//! sessions and for each report.
//!
//! A `World` keeps these three, and no history: that is the contract's. The guarantee is that of
//! `run`, the theorem of this repository. `kbsim` calls it, and the tests of a host's driver can.

mod event;
mod injector;
mod world;

pub use wuzhikar::parts::control_ep::Why;
pub use wuzhikar::parts::debounce::Scan;
pub use event::{Answer, Event};
pub use wuzhikar_log::parts::flash_model::Mask;
pub use crate::parts::host::{Reading, UsageList};
pub use injector::Operation;
pub use wuzhikar::parts::keymap_store::Work;
pub use wuzhikar::parts::reports::Report;
pub use world::{World, WorldOf};
