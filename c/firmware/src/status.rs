// SPDX-License-Identifier: MIT OR Apache-2.0
//! What the calls answer where they refuse.

use core::ffi::{CStr, c_char, c_int};

/// What a call gives: a number from 0 on, or why it refuses.
pub type Answer = Result<c_int, Status>;

/// Makes the statuses, with their numbers and names, which are those of the header.
macro_rules! statuses {
    ($($name:ident = $number:literal, $text:literal;)*) => {
        /// Why a call refuses. The header says when.
        #[derive(Clone, Copy, Debug, PartialEq, Eq)]
        #[repr(i32)]
        pub enum Status {
            $($name = $number,)*
        }

        fn name_of(status: c_int) -> &'static CStr {
            match status {
                $($number => $text,)*
                0.. => c"Ok",
                _ => c"Unknown",
            }
        }
    };
}

statuses! {
    Nak = -1, c"Nak";
    Stall = -2, c"Stall";
    Null = -3, c"Null";
    Length = -4, c"Length";
    NotStarted = -5, c"NotStarted";
    Busy = -6, c"Busy";
    Pages = -7, c"Pages";
    Code = -8, c"Code";
    Range = -9, c"Range";
    Room = -10, c"Room";
    Absent = -11, c"Absent";
    Later = -12, c"Later";
    Unfinished = -13, c"Unfinished";
    NotNow = -14, c"NotNow";
    NoRoom = -15, c"NoRoom";
    Unsound = -16, c"Unsound";
    Worn = -17, c"Worn";
    Fault = -18, c"Fault";
    TooLong = -19, c"TooLong";
    Full = -20, c"Full";
    Foreign = -21, c"Foreign";
    Damaged = -22, c"Damaged";
}

/// What a call returns to C.
pub fn told(answer: Answer) -> c_int {
    match answer {
        Ok(number) => number,
        Err(status) => status as c_int,
    }
}

#[unsafe(no_mangle)]
pub extern "C" fn wz_status_name(status: c_int) -> *const c_char {
    name_of(status).as_ptr()
}
