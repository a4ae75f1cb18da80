// SPDX-License-Identifier: MIT OR Apache-2.0
//! The names of faults and statuses, as C reads them.

use crate::status::Status;
use core::ffi::CStr;
use wuzhikar_reader::ParseFault;

/// A list of all values of a type, each with its name in the source, for C. One that is left out, and a name that the type
/// doesn't have, don't compile.
macro_rules! names {
    ($list:ident, $type:ident: $($name:ident)*) => {
        const $list: &[($type, &CStr)] = &[$(($type::$name, ended(concat!(stringify!($name), "\0")))),*];
        const _: fn($type) = |value| match value {
            $($type::$name => (),)*
        };
    };
}

names!(FAULTS, ParseFault: Truncated Delimiter PopEmpty PushDeep BadReportId SizeTooLarge CountTooLarge EndWithoutCollection
    CollectionDeep UnpairedUsage UsageInverted LogicalInverted TooManyFields MixedIds CollectionOpen TooLong Memory);
names!(STATUSES, Status: Ok Null Length NoHandle Closed WrongKind Full NoMemory Fault Absent EmptyReport UnknownId ShortReport
    UnknownReport OtherId NoUnused UnknownControl Twice NoNull TooLarge OutOfRange NoRoom EqualLimits InvertedLimits
    ReservedDigit NoSystem ReservedSystem VendorSystem Overlap NoStep);

/// Returns the name of the fault with this number, 1 to 17; empty for another number.
pub fn fault_name(number: u32) -> &'static CStr {
    name(FAULTS, |fault| u32::from(fault.number()) == number)
}

/// Returns the name of the status with this number, 0 to 29; empty for another number.
pub fn status_name(number: i32) -> &'static CStr {
    name(STATUSES, |status| status as i32 == number)
}

fn name<T: Copy>(list: &[(T, &'static CStr)], is: impl Fn(T) -> bool) -> &'static CStr {
    list.iter().find(|(value, _)| is(*value)).map_or(c"", |(_, name)| name)
}

const fn ended(name: &str) -> &CStr {
    match CStr::from_bytes_with_nul(name.as_bytes()) {
        Ok(name) => name,
        Err(_) => panic!("a name has one NUL, at its end"),
    }
}

#[cfg(test)]
mod tests {
    use super::*;

    #[test]
    fn each_number_has_the_name_of_the_source() {
        assert_eq!((FAULTS.len(), STATUSES.len()), (17, 30));
        for (fault, name) in FAULTS {
            assert_eq!(fault_name(fault.number().into()), *name);
            assert_eq!(name.to_str().unwrap(), format!("{fault:?}"));
        }
        for (status, name) in STATUSES {
            assert_eq!(status_name(*status as i32), *name);
            assert_eq!(name.to_str().unwrap(), format!("{status:?}"));
        }
        for number in [0, 18, 255, 273, u32::MAX] {
            assert_eq!(fault_name(number), c"");
        }
        for number in [-1, 30, 256, i32::MIN, i32::MAX] {
            assert_eq!(status_name(number), c"");
        }
    }
}
