// Exported from crates/field_details/src/details.rt by bin/export-rust. Edit that file instead.
//! What was declared.

use crate::parts::field_details::applications::Applications;
use crate::parts::field_details::around::{Around, application_of};
use crate::parts::field_details::collection::Collection;
use crate::parts::field_details::detail::Detail;
use crate::parts::field_details::names::Names;
use crate::parts::field_details::placed::{PlacedFields, Question};
use crate::parts::field_details::report::{Reports, ReportsOf};
use wuzhikar_reader::parts::descriptor_parse::Kind;
use crate::rattle::alloc::Global;

/// What a report descriptor declares, padding among it.
///
/// `fields` are all data items that take a bit, in order of declaration: those that are not Constant are the fields of
/// `wuzhikar_reader::Descriptor`, in its order, and the others are padding. A collection is known by its number, which is
/// its place in `collections`.
#[derive(Debug)]
#[derive(Clone, Default, PartialEq, Eq)]
pub struct Details {
    /// The data items that take a bit.
    pub fields: crate::rattle::Vec<Detail>,
    /// The collections, in order of declaration.
    pub collections: crate::rattle::Vec<Collection>,
    pub(crate) names: Names,
}

impl Details {
    pub(crate) fn new(alloc: Global) -> Details {
        Details {
            fields: crate::rattle::vec::new(alloc),
            collections: crate::rattle::vec::new(alloc),
            names: Names::new(alloc),
        }
    }

    /// The number of the innermost Application collection around a data item, if it is in one.
    pub fn application(&self, place: usize) -> Option<usize> {
        application_of(&self.fields, &self.collections, place)
    }

    /// The numbers of the collections around a data item, outermost first; none where there is no such item.
    pub fn around(&self, place: usize) -> Around<'_> {
        Around::new(&self.fields, &self.collections, place)
    }

    /// The data items that are no padding: those that `wuzhikar_reader::Descriptor::fields` has, in its order.
    pub fn data_fields(&self) -> PlacedFields<'_> {
        PlacedFields::new(Question::Data, &self.fields, &self.collections)
    }

    /// The Constant data items, in order: padding.
    pub fn padding(&self) -> PlacedFields<'_> {
        PlacedFields::new(Question::Padding, &self.fields, &self.collections)
    }

    /// The data items of one report in order, padding among them. The ID is 0 where none is used.
    pub fn report(&self, kind: Kind, id: u32) -> PlacedFields<'_> {
        PlacedFields::new(Question::Report(kind, id), &self.fields, &self.collections)
    }

    /// All reports, in order of their first data items.
    pub fn reports(&self) -> Reports<'_> {
        Reports::new(&self.fields, &self.collections)
    }

    /// The Application collections with their places in `collections`, in order.
    pub fn applications(&self) -> Applications<'_> {
        Applications::new(None, &self.fields, &self.collections)
    }

    /// The reports that have a data item in an application, innermost, in order of their first data items in it. One report
    /// may be of several. The application is given by its place in `collections`.
    pub fn reports_of(&self, application: usize) -> ReportsOf<'_> {
        ReportsOf::new(&self.fields, &self.collections, application)
    }

    /// The applications that the data items of a report belong to, with their places in `collections`, in order. There can be
    /// several, as there can be data items outside of all.
    pub fn applications_of(&self, kind: Kind, id: u32) -> Applications<'_> {
        Applications::new(Some((kind, id)), &self.fields, &self.collections)
    }

    /// The strings of a data item, as ranges of string indices, first and last of each: those that the Local items since the
    /// Main item before it declare, in order. A String Index is a range of its own, and so is a String Minimum with the Maximum
    /// after it. A Minimum or Maximum without its other half gives none; where the Minimum is over the Maximum, both are given
    /// as they stand (HID 1.11, 6.2.2.8). It is empty where there is no such data item.
    pub fn strings(&self, place: usize) -> &[(u32, u32)] {
        self.names.strings.of_field(place)
    }

    /// The designators of a data item, as [`strings`](Details::strings) gives strings: indices in the physical descriptor.
    pub fn designators(&self, place: usize) -> &[(u32, u32)] {
        self.names.designators.of_field(place)
    }

    /// The strings of a collection.
    pub fn collection_strings(&self, number: usize) -> &[(u32, u32)] {
        self.names.strings.of_collection(number)
    }

    /// The designators of a collection.
    pub fn collection_designators(&self, number: usize) -> &[(u32, u32)] {
        self.names.designators.of_collection(number)
    }
}
