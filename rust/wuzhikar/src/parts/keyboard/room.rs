// Exported from crates/keyboard/src/room.rt by bin/export-rust. Edit that file instead.
//! What a keyboard takes memory for.

use crate::parts::key_reports::KeyReports;
use crate::rattle::alloc::{AllocError, Global};

/// The memory of a keyboard: room for the reports that wait for a poll. To take it is all that can be
/// refused.
#[derive(Debug)]
pub struct Room {
    keys: KeyReports,
}

// No report waits in it: its keys stand for no call.

impl Room {
    /// Takes the room of one keyboard. `AllocError` where there is no memory for it.
    pub fn take(alloc: Global) -> Result<Room, AllocError> {
        let keys = KeyReports::new(alloc)?;
        Ok(Room { keys })
    }

    /// The keys and their reports, in this room.
    pub(crate) fn into_keys(self) -> KeyReports {
        self.keys
    }
}
