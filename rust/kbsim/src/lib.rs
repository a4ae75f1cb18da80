//! A simulated keyboard on a flash in memory. It runs event by event, with a power loss at any point.
//!
//! [`run_script`] runs a script and prints the result of each line. [`World`] gives your own program the keyboard, its flash,
//! its host and its power switch. [`parse_text`] prints the fields of a report descriptor, and [`describe`] prints the
//! descriptors of the keyboard. The program `kbsim` runs these calls on files, and also reads HID reports.
//!
//! ```
//! use kbsim::run_script;
//!
//! let script = "set 0 0 0005\ncut\nentry 0 0\n";
//! let mut lines = Vec::new();
//! run_script(2, &mut script.as_bytes(), &mut lines)?;
//! assert_eq!(lines, b"1 ack\n2 restart\n3 0005\n");
//! # Ok::<(), kbsim::RunError>(())
//! ```
//!
//! **Exported from a proved source.** The hidden module `parts` holds the code of crates that are proved in Rattle
//! (Rust with contracts), without what only the prover reads. The proofs are about that source. What is written by hand in
//! this crate, with the program's command line, is tested and not proved.
#![forbid(unsafe_code)]
#![warn(missing_debug_implementations)]

mod face;
#[doc(hidden)]
pub mod parts;
#[doc(hidden)]
pub mod rattle;

pub use crate::face::{blank_flash, image_flash, parse_text, run_on, run_script, run_with};
pub use crate::parts::host::{Host, Reading, UsageList};
pub use crate::parts::kbsim::{Line, LineFault, Outcome, RunError, Silent, Sink, Step, print_fault};
pub use crate::parts::parse_lines::{LinesError, describe};
pub use crate::parts::world::{Answer, Event, Operation, World, WorldOf};
pub use wuzhikar::{EpAnswer, FlashError, Mask, Report, Scan, SimFlash, Why, Work};
pub use wuzhikar_hid::texts;
pub use wuzhikar_reader::AllocError;
