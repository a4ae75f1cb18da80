// Exported from crates/field_details/src/walk.rt by bin/export-rust. Edit that file instead.
//! The walk over the items of a text, which keeps what is in force beside the parser.

use crate::parts::field_details::collection::Collection;
use crate::parts::field_details::detail::Detail;
use crate::parts::field_details::details::Details;
use crate::parts::field_details::extents::{Extents, take_global, take_skipped};
use crate::parts::field_details::pending::AllPending;
use wuzhikar_reader::parts::descriptor_parse::beside::Beside;
use wuzhikar_reader::parts::descriptor_parse::globals::Globals;
use wuzhikar_reader::parts::descriptor_parse::number::unsigned;
use wuzhikar_reader::parts::descriptor_parse::stack::Stack;
use wuzhikar_reader::parts::descriptor_parse::state::State;
use wuzhikar_reader::parts::descriptor_parse::usage::{Usage, read_usage};
use wuzhikar_reader::parts::descriptor_parse::{Item, Kind, LocalTag, MainTag, Tag};
use crate::rattle::alloc::{AllocError, Global};

/// What the items so far leave to the next one, and what they declared.
pub(crate) struct Walk {
    pub(crate) extents: Stack<Extents>,
    /// The first Usage since the latest Main item.
    pub(crate) usage: Option<Usage>,
    /// The numbers of the collections that are open, outermost first.
    pub(crate) opened: crate::rattle::Vec<usize>,
    pub(crate) pending: AllPending,
    pub(crate) reported: Details,
}

impl Walk {
    pub(crate) fn new(alloc: Global) -> Walk {
        Walk {
            extents: Stack::new(alloc, Extents::NONE),
            usage: None,
            opened: crate::rattle::vec::new(alloc),
            pending: AllPending::new(alloc),
            reported: Details::new(alloc),
        }
    }

    /// What was declared.
    pub(crate) fn into_details(self) -> Details {
        let Walk {
            reported,
            extents: _,
            usage: _,
            opened: _,
            pending: _,
        } = self;
        reported
    }

    /// Takes a Local item.
    fn take_local(&mut self, tag: LocalTag, bytes: &[u8]) {
        match tag {
            LocalTag::Usage => self.note_usage(read_usage(bytes)),
            _ => {}
        }
    }

    /// Keeps a usage, if it is the first since the latest Main item.
    fn note_usage(&mut self, usage: Usage) {
        if self.usage.is_none() {
            self.usage = Some(usage);
        }
    }

    /// Takes a Main item.
    fn take_main(
        &mut self,
        tag: MainTag,
        offset: usize,
        value: u32,
        before: &State,
    ) -> Result<(), AllocError> {
        match tag {
            MainTag::Data(kind) => self.take_data(kind, offset, value, before),
            MainTag::Collection => self.open_collection(offset, value, before),
            MainTag::EndCollection => {
                self.close_collection();
                Ok(())
            }
        }
    }

    /// Takes a data item.
    fn take_data(
        &mut self,
        kind: Kind,
        offset: usize,
        flags: u32,
        before: &State,
    ) -> Result<(), AllocError> {
        if !fills(before.globals()) {
            self.end_locals();
            return Ok(());
        }
        let detail = self.detail(kind, offset, flags, before);
        let place = self.reported.fields.len();
        self.reported.names.name_field(place, &self.pending)?;
        self.reported.fields.push_in(detail)?;
        self.end_locals();
        Ok(())
    }

    /// What a data item declares.
    fn detail(&self, kind: Kind, offset: usize, flags: u32, before: &State) -> Detail {
        let (globals, extents) = (before.globals(), &self.extents.now);
        detail_by(
            kind,
            offset,
            flags,
            before.bits(kind),
            self.innermost(),
            globals,
            extents,
        )
    }

    /// The number of the innermost collection that is open, if one is.
    fn innermost(&self) -> Option<usize> {
        self.opened.last().copied()
    }

    /// Takes a Collection item.
    fn open_collection(
        &mut self,
        offset: usize,
        kind: u32,
        before: &State,
    ) -> Result<(), AllocError> {
        let collection = self.collection(offset, kind, before);
        let number = self.reported.collections.len();
        self.reported.names.name_collection(number, &self.pending)?;
        self.opened.push_in(number)?;
        self.reported.collections.push_in(collection)?;
        self.end_locals();
        Ok(())
    }

    /// What a Collection item declares.
    fn collection(&self, offset: usize, kind: u32, before: &State) -> Collection {
        Collection {
            offset,
            kind,
            usage: usage_on(before.globals().page, self.usage),
            outer: self.innermost(),
        }
    }

    /// Takes an End Collection item.
    fn close_collection(&mut self) {
        let _ = self.opened.pop();
        self.end_locals();
    }

    /// Ends the Local items at a Main item.
    #[inline(always)]
    fn end_locals(&mut self) {
        self.usage = None;
        self.pending.clear();
    }
}

impl Beside for Walk {
    fn take(&mut self, item: &Item<'_>, before: &State) -> Result<(), AllocError> {
        match item.tag() {
            Tag::Main(tag) => self.take_main(tag, item.offset, unsigned(item.bytes), before),
            Tag::Global(tag) => take_global(&mut self.extents, tag),
            Tag::Local(tag) => {
                self.take_local(tag, item.bytes);
                Ok(())
            }
            Tag::Skipped => {
                take_skipped(&mut self.extents, item.prefix, item.bytes);
                self.pending.take(item)
            }
        }
    }
}

/// A data item under these values, from a bit on.
fn detail_by(
    kind: Kind,
    offset: usize,
    flags: u32,
    bit: u64,
    inside: Option<usize>,
    globals: &Globals,
    extents: &Extents,
) -> Detail {
    Detail {
        offset,
        kind,
        flags,
        id: globals.id as u32,
        bit,
        size: globals.size,
        count: globals.count,
        min: globals.min,
        max: globals.max(),
        physical_min: extents.min,
        physical_max: extents.greatest(),
        unit: extents.unit,
        exponent: extents.exponent,
        inside,
    }
}

/// Whether a data item under these Globals takes a bit.
fn fills(globals: &Globals) -> bool {
    globals.size > 0 && globals.count > 0
}

/// The number of a usage, if there is one.
fn usage_on(page: u16, usage: Option<Usage>) -> Option<u32> {
    match usage {
        Some(usage) => Some(usage.on(page)),
        None => None,
    }
}

#[allow(unused_imports)]
use crate::rattle::memory::*;
