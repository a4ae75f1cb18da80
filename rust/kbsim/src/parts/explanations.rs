// Exported from crates/explanations/src/lib.rt by bin/export-rust. Edit that file instead.
//! Explanations for people: what each answer of a script means, in a sentence.
//!
//! An [`Explainer`] hears the steps and the lines of a run, and says behind each line what its answer means: the reason of a
//! STALL, the request of a SETUP packet, the usages of a report, the flash operation of a background step, by their names. A
//! program gives it a place for the sentences, such as standard error.

mod code;
mod edges;
mod explainer;
mod explanation;
mod operation;
mod reason;
mod report;
mod request;
mod slot;
mod usages;

pub use explainer::{Explainer, Tell};
