// Exported from crates/descriptor_parse/src/stack.rt by bin/export-rust. Edit that file instead.
//! Values of Global items, which Push saves and Pop puts in force again (HID 1.11, 6.2.2.7).

use crate::rattle::alloc::{AllocError, Global};

/// The values in force, and those of the Pushes that are still to be popped, the latest last.
#[derive(Debug)]
pub struct Stack<T> {
    /// Those in force.
    pub now: T,
    /// Those that are saved.
    pub saved: crate::rattle::Vec<T>,
}

impl<T: Copy> Stack<T> {
    /// These values, and none saved.
    pub fn new(alloc: Global, now: T) -> Stack<T> {
        Stack {
            now,
            saved: crate::rattle::vec::new(alloc),
        }
    }

    /// Saves the values in force.
    #[inline(always)]
    pub fn save(&mut self) -> Result<(), AllocError> {
        self.saved.push_in(self.now)?;
        Ok(())
    }

    /// Puts the latest saved values in force again, if there are any.
    pub fn restore(&mut self) {
        match self.saved.pop() {
            Some(values) => self.now = values,
            None => {}
        }
    }
}

#[allow(unused_imports)]
use crate::rattle::memory::*;
