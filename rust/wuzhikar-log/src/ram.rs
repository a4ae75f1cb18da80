//! A flash in memory for the tests of the adapters. Written by hand.

use std::vec;
use std::vec::Vec;

use crate::driver::FlashDriver;

/// A flash in memory that answers an error for each call that is not aligned, is outside of it, or programs a byte that
/// is not FFh; and for each read while `deaf` is set.
#[derive(Debug)]
pub struct Ram<const READ: usize, const WRITE: usize, const ERASE: usize> {
    pub bytes: Vec<u8>,
    pub deaf: bool,
    pub erased: Vec<(u32, u32)>,
}

impl<const READ: usize, const WRITE: usize, const ERASE: usize> Ram<READ, WRITE, ERASE> {
    pub fn new(capacity: usize) -> Self {
        Ram { bytes: vec![0xFF; capacity], deaf: false, erased: Vec::new() }
    }

    fn part(&mut self, from: u32, length: usize, unit: usize) -> Result<&mut [u8], &'static str> {
        if from as usize % unit != 0 || length % unit != 0 {
            return Err("not aligned");
        }
        self.bytes.get_mut(from as usize..from as usize + length).ok_or("outside")
    }
}

impl<const READ: usize, const WRITE: usize, const ERASE: usize> FlashDriver for Ram<READ, WRITE, ERASE> {
    type Error = &'static str;
    const READ_SIZE: usize = READ;
    const WRITE_SIZE: usize = WRITE;
    const ERASE_SIZE: usize = ERASE;

    fn capacity(&self) -> usize {
        self.bytes.len()
    }

    fn read(&mut self, offset: u32, bytes: &mut [u8]) -> Result<(), &'static str> {
        if self.deaf {
            return Err("deaf");
        }
        bytes.copy_from_slice(self.part(offset, bytes.len(), READ)?);
        Ok(())
    }

    fn write(&mut self, offset: u32, bytes: &[u8]) -> Result<(), &'static str> {
        let part = self.part(offset, bytes.len(), WRITE)?;
        if part.iter().any(|&byte| byte != 0xFF) {
            return Err("programmed before");
        }
        part.copy_from_slice(bytes);
        Ok(())
    }

    fn erase(&mut self, from: u32, to: u32) -> Result<(), &'static str> {
        self.part(from, (to - from) as usize, ERASE)?.fill(0xFF);
        self.erased.push((from, to));
        Ok(())
    }
}
