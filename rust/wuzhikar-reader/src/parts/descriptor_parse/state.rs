// Exported from crates/descriptor_parse/src/state.rt by bin/export-rust. Edit that file instead.
//! What the parser keeps between two items.

use crate::parts::descriptor_parse::fault::ParseFault;
use crate::parts::descriptor_parse::field::Kind;
use crate::parts::descriptor_parse::globals::{Globals, take_global};
use crate::parts::descriptor_parse::items::{Item, LONG};
use crate::parts::descriptor_parse::locals::Locals;
use crate::parts::descriptor_parse::number::unsigned;
use crate::parts::descriptor_parse::reports::{MAX_COUNT, MAX_SIZE, Reports, declares};
use crate::parts::descriptor_parse::stack::Stack;
use crate::parts::descriptor_parse::tag::{GlobalTag, LocalTag, MainTag, Tag};
use crate::parts::descriptor_parse::usage::{Usage, read_usage};
use crate::rattle::alloc::{AllocError, Global};
use core::fmt;
use core::fmt::Debug;

/// The most bits of a Constant item's place.
const MAX_CONSTANT_SIZE: u32 = 1024;

const MAX_FIELDS: usize = 256;

const MAX_COLLECTIONS: usize = 16;

const MAX_PUSHES: usize = 8;

/// What the items so far leave to the next one.
pub struct State {
    pub(crate) globals: Stack<Globals>,
    pub(crate) locals: Locals,
    pub(crate) reports: Reports,
    /// The collections that are open.
    pub(crate) collections: usize,
}

impl State {
    #[inline(always)]
    pub(crate) fn new(alloc: Global) -> State {
        State {
            globals: Stack::new(alloc, Globals::NONE),
            locals: Locals::new(alloc),
            reports: Reports::new(alloc),
            collections: 0,
        }
    }

    /// The Globals in force.
    pub fn globals(&self) -> &Globals {
        &self.globals.now
    }

    /// The bits so far of the report of a kind that has the ID in force.
    pub fn bits(&self, kind: Kind) -> u64 {
        self.reports.totals.bits(kind, self.globals.now.id)
    }

    #[inline(always)]
    pub(crate) fn into_reports(self) -> Reports {
        let State {
            reports,
            globals: _,
            locals: _,
            collections: _,
        } = self;
        reports
    }

    /// The first fault of a whole item.
    pub(crate) fn check(&self, item: &Item<'_>) -> Option<ParseFault> {
        if item.prefix == LONG {
            return None;
        }
        match Tag::of(item.prefix) {
            Tag::Main(tag) => self.check_main(tag, unsigned(item.bytes)),
            Tag::Global(tag) => self.check_global(tag, item.bytes),
            Tag::Local(tag) => self.locals.check(tag, read_usage(item.bytes)),
            Tag::Skipped => None,
        }
    }

    /// The fault of a Global item.
    #[inline(always)]
    fn check_global(&self, tag: GlobalTag, bytes: &[u8]) -> Option<ParseFault> {
        match tag {
            GlobalTag::Pop if self.globals.saved.is_empty() => Some(ParseFault::PopEmpty),
            GlobalTag::Push if self.globals.saved.len() >= MAX_PUSHES => Some(ParseFault::PushDeep),
            GlobalTag::ReportId if !is_report_id(unsigned(bytes)) => Some(ParseFault::BadReportId),
            GlobalTag::ReportId if self.reports.has_bare => Some(ParseFault::MixedIds),
            _ => None,
        }
    }

    /// The fault of a Main item.
    #[inline(always)]
    fn check_main(&self, tag: MainTag, flags: u32) -> Option<ParseFault> {
        match tag {
            MainTag::Data(_) => self.check_data(flags),
            MainTag::Collection if self.collections >= MAX_COLLECTIONS => Some(
                ParseFault::CollectionDeep,
            ),
            MainTag::EndCollection if self.collections == 0 => Some(
                ParseFault::EndWithoutCollection,
            ),
            _ if self.locals.half.is_some() => Some(ParseFault::UnpairedUsage),
            _ => None,
        }
    }

    /// The fault of a data item.
    #[inline(always)]
    fn check_data(&self, flags: u32) -> Option<ParseFault> {
        let globals = &self.globals.now;
        let constant = flags % 2 == 1;
        if globals.size > size_limit(constant) {
            return Some(ParseFault::SizeTooLarge);
        }
        if globals.count > MAX_COUNT {
            return Some(ParseFault::CountTooLarge);
        }
        if self.locals.half.is_some() {
            return Some(ParseFault::UnpairedUsage);
        }
        if flags / 2 % 2 == 0 && !constant && globals.max() < globals.min {
            return Some(ParseFault::LogicalInverted);
        }
        if declares(flags, globals) && self.reports.fields.len() >= MAX_FIELDS {
            return Some(ParseFault::TooManyFields);
        }
        if globals.id == 0 && self.reports.has_ids {
            return Some(ParseFault::MixedIds);
        }
        None
    }

    /// Judges a whole item and takes it. The error is its first fault, or `Memory` where it shows none and a growth
    /// was refused.
    #[inline(always)]
    pub(crate) fn step(&mut self, item: &Item<'_>) -> Result<(), ParseFault> {
        // A long item is one of those that are skipped.
        match Tag::of(item.prefix) {
            // The compiler makes a shorter way for each kind of item that stands alone: most are of these.
            Tag::Main(MainTag::Data(kind)) => self.step_main(
                MainTag::Data(kind),
                unsigned(item.bytes),
            ),
            Tag::Main(tag) => self.step_main(tag, unsigned(item.bytes)),
            Tag::Global(tag) => self.step_global(tag, item.bytes),
            Tag::Local(LocalTag::Usage) => self.step_local(LocalTag::Usage, read_usage(item.bytes)),
            Tag::Local(tag) => self.step_local(tag, read_usage(item.bytes)),
            Tag::Skipped => Ok(()),
        }
    }

    #[inline(always)]
    fn step_main(&mut self, tag: MainTag, flags: u32) -> Result<(), ParseFault> {
        if let Some(fault) = self.check_main(tag, flags) {
            return Err(fault);
        }
        match self.take_main(tag, flags) {
            Ok(()) => Ok(()),
            Err(_) => Err(ParseFault::Memory),
        }
    }

    #[inline(always)]
    fn step_global(&mut self, tag: GlobalTag, bytes: &[u8]) -> Result<(), ParseFault> {
        if let Some(fault) = self.check_global(tag, bytes) {
            return Err(fault);
        }
        match self.take_global(tag, bytes) {
            Ok(()) => Ok(()),
            Err(_) => Err(ParseFault::Memory),
        }
    }

    #[inline(always)]
    fn step_local(&mut self, tag: LocalTag, usage: Usage) -> Result<(), ParseFault> {
        if let Some(fault) = self.locals.check(tag, usage) {
            return Err(fault);
        }
        match self.locals.take(tag, usage) {
            Ok(()) => Ok(()),
            Err(_) => Err(ParseFault::Memory),
        }
    }

    #[inline(always)]
    fn take_global(&mut self, tag: GlobalTag, bytes: &[u8]) -> Result<(), AllocError> {
        take_global(&mut self.globals, tag, bytes)?;
        self.reports.note(tag);
        Ok(())
    }

    #[inline(always)]
    fn take_main(&mut self, tag: MainTag, flags: u32) -> Result<(), AllocError> {
        match tag {
            MainTag::Data(kind) => self.take_data(kind, flags),
            MainTag::Collection => {
                self.open_collection();
                Ok(())
            }
            MainTag::EndCollection => {
                self.close_collection();
                Ok(())
            }
        }
    }

    /// Takes a data item that shows no fault.
    #[inline(always)]
    fn take_data(&mut self, kind: Kind, flags: u32) -> Result<(), AllocError> {
        self.reports
            .take(kind, flags, &self.globals.now, &self.locals)?;
        self.locals.clear();
        Ok(())
    }

    #[inline(always)]
    fn open_collection(&mut self) {
        self.collections = self.collections.saturating_add(1);
        self.locals.clear();
    }

    #[inline(always)]
    fn close_collection(&mut self) {
        self.collections = self.collections.saturating_sub(1);
        self.locals.clear();
    }
}

impl Debug for State {
    fn fmt(&self, f: &mut fmt::Formatter<'_>) -> fmt::Result {
        f.debug_struct("State")
            .field("collections", &self.collections)
            .finish_non_exhaustive()
    }
}

/// Whether a number can be a Report ID.
#[inline(always)]
fn is_report_id(number: u32) -> bool {
    number > 0 && number <= 255
}

/// The most bits of a place.
fn size_limit(constant: bool) -> u32 {
    if constant {
        MAX_CONSTANT_SIZE
    } else {
        MAX_SIZE
    }
}
