// Exported from crates/field_details/src/applications.rt by bin/export-rust. Edit that file instead.
//! Application collections.

use crate::parts::field_details::collection::Collection;
use crate::parts::field_details::detail::Detail;
use crate::parts::field_details::placed::has_inside;
use wuzhikar_reader::parts::descriptor_parse::Kind;

/// Application collections with their numbers, in order.
#[derive(Debug)]
pub struct Applications<'a> {
    /// The report that they are of, if one is asked for.
    of: Option<(Kind, u32)>,
    reported: &'a [Detail],
    groups: &'a [Collection],
    /// The number of the next one that may be asked for.
    next: usize,
}

impl<'a> Applications<'a> {
    pub(crate) fn new(
        of: Option<(Kind, u32)>,
        reported: &'a [Detail],
        groups: &'a [Collection],
    ) -> Applications<'a> {
        Applications {
            of,
            reported,
            groups,
            next: 0,
        }
    }

    /// The next one, and what is left is without it; `None` past the last.
    #[inline(always)]
    fn take(&mut self) -> Option<(usize, &'a Collection)> {
        let found = first_from(self.of, self.reported, self.groups, self.next);
        match found {
            Some((number, _)) => self.next = number + 1,
            None => {}
        }
        found
    }
}

impl<'a> Iterator for Applications<'a> {
    type Item = (usize, &'a Collection);

    #[inline(always)]
    fn next(&mut self) -> Option<(usize, &'a Collection)> {
        self.take()
    }
}

/// The first collection from a number on that is asked for.
#[inline(always)]
fn first_from<'a>(
    of: Option<(Kind, u32)>,
    reported: &[Detail],
    groups: &'a [Collection],
    from: usize,
) -> Option<(usize, &'a Collection)> {
    let mut number = from;
    while let Some(group) = groups.get(number) {
        if belongs(of, reported, groups, number, group) {
            return Some((number, group));
        }
        number += 1;
    }
    None
}

/// Whether a collection is asked for.
#[inline(always)]
fn belongs(
    of: Option<(Kind, u32)>,
    reported: &[Detail],
    groups: &[Collection],
    number: usize,
    group: &Collection,
) -> bool {
    match of {
        Some((kind, id)) => {
            group.is_application() && has_inside(reported, reported, groups, number, kind, id)
        }
        None => group.is_application(),
    }
}
