// SPDX-License-Identifier: MIT OR Apache-2.0
//! The driver of a USB controller that a firmware lends, as a table of functions.

use crate::edge::Value;
use crate::status::Status;
use core::ffi::{c_int, c_void};
use core::ptr::null;
use wuzhikar_device::{Buffers, Controller, Endpoint1, Input, Output, Report, Waiting};

/// `wz_waiting`
#[repr(C)]
#[derive(Clone, Copy)]
pub struct Met {
    reset: u8,
    has_setup: u8,
    has_out: u8,
    taken: u8,
    setup: [u8; 8],
    out: [u8; 8],
    out_length: u8,
}

const NOTHING: Met = Met { reset: 0, has_setup: 0, has_out: 0, taken: 0, setup: [0; 8], out: [0; 8], out_length: 0 };

/// Makes the table of the header, and the same with all functions there.
macro_rules! functions {
    ($($name:ident: $kind:ty,)*) => {
        /// `wz_driver`
        #[repr(C)]
        #[derive(Clone, Copy)]
        pub struct Table {
            context: *mut c_void,
            $($name: Option<$kind>,)*
        }

        /// A driver, made of such a table.
        pub struct Driver {
            context: *mut c_void,
            $($name: $kind,)*
        }

        impl Driver {
            /// Makes the driver of a table. `Null` if the table or one of its functions is null.
            pub fn from_table(table: &Value<Table>) -> Result<Driver, Status> {
                let table = table.get()?;
                Ok(Driver { context: table.context, $($name: table.$name.ok_or(Status::Null)?,)* })
            }
        }
    };
}

functions! {
    waiting: extern "C" fn(*mut c_void, *mut Met),
    input_0: extern "C" fn(*mut c_void, c_int, *const u8, usize),
    output_0: extern "C" fn(*mut c_void, c_int),
    set_address: extern "C" fn(*mut c_void, u8),
    has_two: extern "C" fn(*mut c_void) -> c_int,
    taken_1: extern "C" fn(*mut c_void) -> usize,
    begin_anew: extern "C" fn(*mut c_void, c_int),
    give_up: extern "C" fn(*mut c_void),
    host_began: extern "C" fn(*mut c_void),
    forget: extern "C" fn(*mut c_void),
    input_1: extern "C" fn(*mut c_void, *const u8, usize),
}

/// A handle of a driver, for endpoint 0 and for endpoint 1.
#[derive(Clone, Copy)]
pub struct Bus(pub &'static Driver);

impl Controller for Bus {
    fn waiting(&mut self) -> Waiting {
        let mut met = NOTHING;
        (self.0.waiting)(self.0.context, &raw mut met);
        let out = met.out.iter().copied().take(usize::from(met.out_length)).collect();
        Waiting {
            reset: met.reset != 0,
            setup: (met.has_setup != 0).then_some(met.setup),
            out: (met.has_out != 0).then_some(out),
            taken: met.taken != 0,
        }
    }

    fn input_0(&mut self, answer: Input) {
        let (number, bytes, length) = match &answer {
            Input::Nak => (0, null(), 0),
            Input::Packet(packet) => (1, packet.as_ptr(), packet.len()),
            Input::Stall => (2, null(), 0),
        };
        (self.0.input_0)(self.0.context, number, bytes, length);
    }

    fn output_0(&mut self, answer: Output) {
        let number = match answer {
            Output::Nak => 0,
            Output::Take => 1,
            Output::Stall => 2,
        };
        (self.0.output_0)(self.0.context, number);
    }

    fn set_address(&mut self, address: u8) {
        (self.0.set_address)(self.0.context, address);
    }
}

/// The number of a state of endpoint 1.
pub fn number_of(state: Endpoint1) -> c_int {
    match state {
        Endpoint1::Off => 0,
        Endpoint1::Ready => 1,
        Endpoint1::Halted => 2,
    }
}

impl Buffers for Bus {
    fn has_two(&self) -> bool {
        (self.0.has_two)(self.0.context) != 0
    }

    fn taken_1(&mut self) -> usize {
        (self.0.taken_1)(self.0.context)
    }

    fn begin_anew(&mut self, state: Endpoint1) {
        (self.0.begin_anew)(self.0.context, number_of(state));
    }

    fn give_up(&mut self) {
        (self.0.give_up)(self.0.context);
    }

    fn host_began(&mut self) {
        (self.0.host_began)(self.0.context);
    }

    fn forget(&mut self) {
        (self.0.forget)(self.0.context);
    }

    fn input_1(&mut self, packet: Report) {
        (self.0.input_1)(self.0.context, packet.as_ptr(), packet.len());
    }
}
