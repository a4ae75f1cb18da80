// Exported from crates/descriptor_parse/src/totals.rt by bin/export-rust. Edit that file instead.
//! The bits of each report, and where its fields begin.

use crate::parts::descriptor_parse::field::{Field, Kind};
use crate::rattle::alloc::{AllocError, Global};

/// How many IDs the table has room for at first.
const FIRST_IDS: usize = 16;

/// No place of a field: it is past the last.
pub(crate) const NO_FIELD: u16 = u16::MAX;

/// The bits of the reports of one ID.
#[derive(Clone, Copy)]
#[derive(PartialEq, Eq)]
pub(crate) struct ReportBits {
    pub(crate) input: u64,
    pub(crate) output: u64,
    pub(crate) feature: u64,
}

impl ReportBits {
    const NONE: ReportBits = ReportBits {
        input: 0,
        output: 0,
        feature: 0,
    };

    /// The bits of the report of this kind.
    pub(crate) fn of(self, kind: Kind) -> u64 {
        match kind {
            Kind::Input => self.input,
            Kind::Output => self.output,
            Kind::Feature => self.feature,
        }
    }

    /// Adds to the bits of the report of this kind, and gives those that were.
    #[inline(always)]
    fn add(&mut self, kind: Kind, more: u64) -> u64 {
        match kind {
            Kind::Input => {
                let was = self.input;
                self.input = was.saturating_add(more);
                was
            }
            Kind::Output => {
                let was = self.output;
                self.output = was.saturating_add(more);
                was
            }
            Kind::Feature => {
                let was = self.feature;
                self.feature = was.saturating_add(more);
                was
            }
        }
    }
}

/// The first fields of the reports of one ID.
#[derive(Clone, Copy)]
#[derive(PartialEq, Eq)]
pub(crate) struct FirstFields {
    pub(crate) input: u16,
    pub(crate) output: u16,
    pub(crate) feature: u16,
}

impl FirstFields {
    const NONE: FirstFields = FirstFields {
        input: NO_FIELD,
        output: NO_FIELD,
        feature: NO_FIELD,
    };

    /// The first field of the report of this kind.
    fn of(self, kind: Kind) -> u16 {
        match kind {
            Kind::Input => self.input,
            Kind::Output => self.output,
            Kind::Feature => self.feature,
        }
    }

    /// Makes a field the first of the report of this kind, and gives the one that was.
    #[inline(always)]
    fn lead(&mut self, kind: Kind, place: u16) -> u16 {
        match kind {
            Kind::Input => {
                let was = self.input;
                self.input = place;
                was
            }
            Kind::Output => {
                let was = self.output;
                self.output = place;
                was
            }
            Kind::Feature => {
                let was = self.feature;
                self.feature = place;
                was
            }
        }
    }
}

/// The reports of one ID.
#[derive(Clone, Copy)]
#[derive(PartialEq, Eq)]
pub(crate) struct IdReports {
    pub(crate) bits: ReportBits,
    pub(crate) first: FirstFields,
}

impl IdReports {
    const NONE: IdReports = IdReports {
        bits: ReportBits::NONE,
        first: FirstFields::NONE,
    };
}

/// The bits of each report and its first field, by ID; a report that is not there has none.
#[derive(Clone)]
#[derive(PartialEq, Eq)]
pub(crate) struct Totals {
    pub(crate) by_id: crate::rattle::Vec<IdReports>,
}

impl Totals {
    /// A copy. `AllocError` where there is no memory for it.
    pub fn try_clone(&self) -> Result<Self, crate::rattle::alloc::AllocError> {
        Ok(match self {
            Self { by_id } => Self { by_id: by_id.try_clone()? },
        })
    }
}

impl Totals {
    pub(crate) fn new(alloc: Global) -> Totals {
        Totals {
            by_id: crate::rattle::vec::new(alloc),
        }
    }

    /// The bits of a report.
    pub(crate) fn bits(&self, kind: Kind, id: u8) -> u64 {
        match self.by_id.get(id as usize) {
            Some(reports) => reports.bits.of(kind),
            None => 0,
        }
    }

    /// The first field of a report.
    pub(crate) fn first(&self, kind: Kind, id: u8) -> u16 {
        match self.by_id.get(id as usize) {
            Some(reports) => reports.first.of(kind),
            None => NO_FIELD,
        }
    }

    /// Makes a field the first of its report, and gives the one that was.
    #[inline(always)]
    pub(crate) fn lead(&mut self, field: &Field, place: u16) -> u16 {
        self.by_id[field.id as usize].first.lead(field.kind, place)
    }

    /// Adds to the bits of a report, and gives those that were; to add none takes no memory.
    #[inline(always)]
    pub(crate) fn add(&mut self, kind: Kind, id: u8, more: u64) -> Result<u64, AllocError> {
        if more == 0 {
            return Ok(self.bits(kind, id));
        }
        let place = id as usize;
        self.fill_to(place)?;
        Ok(self.by_id[place].bits.add(kind, more))
    }

    /// Lengthens the table, by IDs without reports, until it has this place.
    #[inline(always)]
    fn fill_to(&mut self, place: usize) -> Result<(), AllocError> {
        if self.by_id.is_empty() {
            self.by_id.reserve_in(FIRST_IDS)?;
        }
        while self.by_id.len() <= place {
            self.by_id.push_in(IdReports::NONE)?;
        }
        Ok(())
    }
}

#[allow(unused_imports)]
use crate::rattle::memory::*;
