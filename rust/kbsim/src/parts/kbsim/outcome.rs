// Exported from crates/kbsim/src/outcome.rt by bin/export-rust. Edit that file instead.
//! What a line comes to.

use crate::parts::kbsim::Answer;

/// What a line of a script prints after its number.
#[derive(Debug)]
pub enum Outcome {
    /// An answer of one of its events.
    Answered(Answer),
    /// So many bytes of the report descriptor came, in a whole transfer.
    Fetched(u16),
}
