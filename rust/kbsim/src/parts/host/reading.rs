// Exported from crates/host/src/reading.rt by bin/export-rust. Edit that file instead.
//! What a report is read as.

/// The usages that are on, rising, each once; the high half of a usage is its page.
#[derive(Clone, Debug)]
pub struct UsageList {
    usages: crate::rattle::Vec<u32>,
}

impl UsageList {
    /// A copy. `AllocError` where there is no memory for it.
    pub fn try_clone(&self) -> Result<Self, crate::rattle::alloc::AllocError> {
        Ok(match self {
            Self { usages } => Self { usages: usages.try_clone()? },
        })
    }
}

impl UsageList {
    pub(crate) fn new(usages: crate::rattle::Vec<u32>) -> UsageList {
        UsageList { usages }
    }

    /// Returns the usages.
    pub fn as_slice(&self) -> &[u32] {
        &self.usages
    }
}

impl PartialEq for UsageList {
    fn eq(&self, other: &UsageList) -> bool {
        self.as_slice() == other.as_slice()
    }
}

impl Eq for UsageList {
}

/// What a host reads in a report.
#[derive(Clone, Debug, PartialEq, Eq)]
pub enum Reading {
    /// There is no descriptor to read it by, or the report is not one that the descriptor declares.
    Unread,
    /// A growth was refused.
    NoMemory,
    /// The usages that are on.
    Usages(UsageList),
}

impl Reading {
    /// A copy. `AllocError` where there is no memory for it.
    pub fn try_clone(&self) -> Result<Self, crate::rattle::alloc::AllocError> {
        Ok(match self {
            Self::Unread => Self::Unread,
            Self::NoMemory => Self::NoMemory,
            Self::Usages(_0) => Self::Usages(_0.try_clone()?),
        })
    }
}

#[allow(unused_imports)]
use crate::rattle::memory::*;
