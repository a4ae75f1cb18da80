// Exported from crates/descriptor_parse/src/reports.rt by bin/export-rust. Edit that file instead.
//! What the data items declare.

use crate::parts::descriptor_parse::field::{Field, Kind};
use crate::parts::descriptor_parse::globals::Globals;
use crate::parts::descriptor_parse::locals::Locals;
use crate::parts::descriptor_parse::tag::GlobalTag;
use crate::parts::descriptor_parse::totals::{NO_FIELD, Totals};
use crate::rattle::alloc::{AllocError, Global};

/// The most bits of a place.
pub(crate) const MAX_SIZE: u32 = 32;

/// The most places of a field.
pub(crate) const MAX_COUNT: u32 = 1024;

/// How many fields there is room for at first.
const FIRST_FIELDS: usize = 16;

/// How many ranges of usages there is room for at first.
const FIRST_RANGES: usize = 64;

/// What stands beside a field.
#[derive(Clone, Copy)]
#[derive(PartialEq, Eq)]
pub(crate) struct Link {
    /// Where the usages of the field end in `ranges`.
    pub(crate) end: usize,
    /// The next field of its report, once all are there; none while they come.
    pub(crate) next: u16,
}

/// The fields so far with their usages, the bits of each report, and whether report IDs are used.
#[derive(Clone)]
#[derive(PartialEq, Eq)]
pub(crate) struct Reports {
    pub(crate) totals: Totals,
    pub(crate) fields: crate::rattle::Vec<Field>,
    /// Beside each field, where its usages end and which field comes next.
    pub(crate) links: crate::rattle::Vec<Link>,
    /// The usages of all fields.
    pub(crate) ranges: crate::rattle::Vec<(u32, u32)>,
    /// Beside each range, how many usages its field has up to it.
    pub(crate) counts: crate::rattle::Vec<u32>,
    /// A Report ID item came.
    pub(crate) has_ids: bool,
    /// A data item came without a Report ID in force.
    pub(crate) has_bare: bool,
}

impl Reports {
    /// A copy. `AllocError` where there is no memory for it.
    pub fn try_clone(&self) -> Result<Self, crate::rattle::alloc::AllocError> {
        Ok(match self {
            Self { totals, fields, links, ranges, counts, has_ids, has_bare } => Self { totals: totals.try_clone()?, fields: fields.try_clone()?, links: links.try_clone()?, ranges: ranges.try_clone()?, counts: counts.try_clone()?, has_ids: has_ids.try_clone()?, has_bare: has_bare.try_clone()? },
        })
    }
}

impl Reports {
    #[inline(always)]
    pub(crate) fn new(alloc: Global) -> Reports {
        Reports {
            totals: Totals::new(alloc),
            fields: crate::rattle::vec::new(alloc),
            links: crate::rattle::vec::new(alloc),
            ranges: crate::rattle::vec::new(alloc),
            counts: crate::rattle::vec::new(alloc),
            has_ids: false,
            has_bare: false,
        }
    }

    /// Notes a Global item: whether it is a Report ID.
    pub(crate) fn note(&mut self, tag: GlobalTag) {
        match tag {
            GlobalTag::ReportId => self.has_ids = true,
            _ => {}
        }
    }

    /// Takes a data item that shows no fault.
    #[inline(always)]
    pub(crate) fn take(
        &mut self,
        kind: Kind,
        flags: u32,
        globals: &Globals,
        locals: &Locals,
    ) -> Result<(), AllocError> {
        let more = (globals.size as u64).saturating_mul(globals.count as u64);
        let bit = self.totals.add(kind, globals.id, more)?;
        self.has_bare |= globals.id == 0;
        self.declare(kind, bit, flags, globals, locals)?;
        Ok(())
    }

    /// Adds the field of a data item, from this bit on, if it declares one.
    #[inline(always)]
    fn declare(
        &mut self,
        kind: Kind,
        bit: u64,
        flags: u32,
        globals: &Globals,
        locals: &Locals,
    ) -> Result<(), AllocError> {
        if !declares(flags, globals) {
            return Ok(());
        }
        if self.fields.is_empty() {
            self.make_room()?;
        }
        locals.append_to(&mut self.ranges, &mut self.counts, globals.page)?;
        self.links.push_in(Link {
            end: self.ranges.len(),
            next: NO_FIELD,
        })?;
        self.fields.push_in(field(kind, bit, flags, globals))?;
        Ok(())
    }

    /// Ties the fields of each report together, the last first.
    #[inline(always)]
    pub(crate) fn link(&mut self) {
        let mut place = self.fields.len();
        while place > 0 {
            place -= 1;
            let next = self.totals.lead(&self.fields[place], place as u16);
            self.links[place].next = next;
        }
    }

    /// Takes memory for some fields.
    // Not inlined, so that the other items cost less.
    #[inline(never)]
    fn make_room(&mut self) -> Result<(), AllocError> {
        self.fields.reserve_in(FIRST_FIELDS)?;
        self.links.reserve_in(FIRST_FIELDS)?;
        self.ranges.reserve_in(FIRST_RANGES)?;
        self.counts.reserve_in(FIRST_RANGES)?;
        Ok(())
    }
}

/// Whether a data item declares a field.
pub(crate) fn declares(flags: u32, globals: &Globals) -> bool {
    flags % 2 == 0 && globals.size > 0 && globals.count > 0
}

/// The field of a data item, whose size and count were found to fit.
#[inline(always)]
fn field(kind: Kind, bit: u64, flags: u32, globals: &Globals) -> Field {
    Field {
        kind,
        id: globals.id,
        bit,
        size: (globals.size % 0x100) as u8,
        count: (globals.count % 0x1_0000) as u16,
        min: globals.min,
        max: globals.max(),
        array: flags / 2 % 2 == 0,
    }
}

#[allow(unused_imports)]
use crate::rattle::memory::*;
