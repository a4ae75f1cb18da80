// Exported from crates/field_details/src/around.rt by bin/export-rust. Edit that file instead.
//! The collections around a data item, by the numbers that are reported.

use crate::parts::field_details::collection::Collection;
use crate::parts::field_details::detail::Detail;

/// The innermost collection around a data item.
#[inline(always)]
pub(crate) fn inside(reported: &[Detail], place: usize) -> Option<usize> {
    match reported.get(place) {
        Some(detail) => detail.inside,
        None => None,
    }
}

/// The collection right around one: it began before.
#[inline(always)]
pub(crate) fn outer(groups: &[Collection], number: usize) -> Option<usize> {
    match groups.get(number) {
        Some(group) => less(group.outer, number),
        None => None,
    }
}

/// A number, if it is less than this.
#[inline(always)]
fn less(outer: Option<usize>, number: usize) -> Option<usize> {
    match outer {
        Some(outer) if outer < number => Some(outer),
        _ => None,
    }
}

#[inline(always)]
fn is_application(groups: &[Collection], number: usize) -> bool {
    match groups.get(number) {
        Some(group) => group.is_application(),
        None => false,
    }
}

/// The innermost Application collection around a data item.
#[inline(always)]
pub(crate) fn application_of(
    reported: &[Detail],
    groups: &[Collection],
    place: usize,
) -> Option<usize> {
    let mut next = inside(reported, place);
    while let Some(number) = next {
        if is_application(groups, number) {
            return Some(number);
        }
        next = outer(groups, number);
    }
    None
}

/// How many collections stand outwards from one, it among them.
fn depth(groups: &[Collection], inner: Option<usize>) -> usize {
    // No way outwards is longer.
    let most = groups.len() + 1;
    let mut left = most;
    let mut next = inner;
    while let Some(number) = next {
        left -= 1;
        next = outer(groups, number);
    }
    most - left
}

/// The collection that stands outwards from one by a number of steps.
fn outwards(groups: &[Collection], inner: Option<usize>, steps: usize) -> Option<usize> {
    let mut left = steps;
    let mut next = inner;
    while let Some(number) = next {
        if left == 0 {
            return next;
        }
        left -= 1;
        next = outer(groups, number);
    }
    None
}

/// The numbers of the collections around a data item, outermost first.
#[derive(Debug)]
pub struct Around<'a> {
    groups: &'a [Collection],
    /// The innermost.
    inner: Option<usize>,
    /// How many are left.
    left: usize,
}

impl<'a> Around<'a> {
    /// Those around a data item.
    pub(crate) fn new(reported: &[Detail], groups: &'a [Collection], place: usize) -> Around<'a> {
        let inner = inside(reported, place);
        Around {
            groups,
            inner,
            left: depth(groups, inner),
        }
    }

    /// The next one, and what is left is without it; `None` past the last.
    fn take(&mut self) -> Option<usize> {
        if self.left == 0 {
            return None;
        }
        self.left -= 1;
        outwards(self.groups, self.inner, self.left)
    }
}

impl<'a> Iterator for Around<'a> {
    type Item = usize;

    fn next(&mut self) -> Option<usize> {
        self.take()
    }
}
