// Exported from crates/kbsim/src/lib.rt by bin/export-rust. Edit that file instead.
//! Running scripts: a keyboard on a flash, moved event by event and looked at.
//!
//! A script is text. Each of its lines is some events of the [`World`], and what they answer is
//! printed as one line. [`run_script`] reads a whole script, checks it, and only then runs it on a
//! blank flash; [`run_on`] does on any, such as [`image_flash`] makes of an image's bytes.
//!
//! [`run_with`] also tells a [`Sink`] of each event and each line.
//!
//! Nothing is kept between two runs. The guarantee is that what is printed is the lines of a run of
//! the world in which each event was answered as it has to be, or, of a script that is refused, its
//! fault alone. The program of this crate calls it, over standard input and output; any reader and
//! writer do.

mod action;
mod fault;
mod fetch;
mod flash;
mod outcome;
mod print;
mod run;
mod sink;
mod spare;

pub use fault::RunError;
pub use flash::{blank_flash, image_flash};
pub use wuzhikar_log::parts::flash_model::SimFlash;
pub use outcome::Outcome;
pub use run::{print_fault, run_on, run_script, run_with};
pub use crate::parts::script::{Line, LineFault};
pub use sink::{Silent, Sink, Step};
pub use crate::parts::world::{Answer, Event, Operation, Reading, Why, Work, World};
