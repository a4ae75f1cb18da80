//! A ring of eight: the crate `circular_buffer` of the source, whose memory is taken from an allocator there, has its
//! room in itself here. The published crate has such a form too, over uninitialized memory and `unsafe`; this one is
//! short enough to be read.

use super::alloc::{AllocError, Global};
use crate::parts::reports::InputReport;

/// How many values have room.
const ROOM: usize = 8;

/// What stands in the ring where no value does: zeros.
pub trait Unused: Copy {
    const UNUSED: Self;
}

impl Unused for InputReport {
    const UNUSED: InputReport = InputReport::UNSTARTED;
}

/// At most eight values; where one more comes, the oldest is dropped.
#[derive(Debug)]
pub struct HeapCircularBuffer<T> {
    slots: [T; ROOM],
    /// Where the oldest value is.
    front: u8,
    len: u8,
}

impl<T: Unused> HeapCircularBuffer<T> {
    /// No value: zeros.
    pub(crate) const UNSTARTED: Self = HeapCircularBuffer { slots: [T::UNUSED; ROOM], front: 0, len: 0 };

    /// No value. Panics for any other room than eight.
    pub fn with_capacity(_alloc: Global, capacity: usize) -> Result<HeapCircularBuffer<T>, AllocError> {
        assert!(capacity == ROOM);
        Ok(HeapCircularBuffer::UNSTARTED)
    }

    /// Appends a value, in place of the oldest one where all slots are taken.
    pub fn push_back(&mut self, value: T) {
        self.slots[usize::from(self.front + self.len) % ROOM] = value;
        if usize::from(self.len) == ROOM {
            self.front = (self.front + 1) % ROOM as u8;
        } else {
            self.len += 1;
        }
    }

    /// Whether there is no value.
    pub fn is_empty(&self) -> bool {
        self.len == 0
    }

    /// Takes the oldest value.
    pub fn pop_front(&mut self) -> Option<T> {
        if self.len == 0 {
            return None;
        }
        let value = self.slots[usize::from(self.front) % ROOM];
        self.front = (self.front + 1) % ROOM as u8;
        self.len -= 1;
        Some(value)
    }

    /// Drops all values.
    pub fn clear(&mut self) {
        self.len = 0;
    }
}

#[cfg(test)]
mod tests {
    use super::*;
    use std::collections::VecDeque;

    impl Unused for u8 {
        const UNUSED: u8 = 0;
    }

    /// The ring beside a queue of std, over all lists of ten calls of these three.
    #[test]
    fn is_a_queue_of_the_newest_eight() {
        for calls in 0..3u32.pow(10) {
            let mut ring = match HeapCircularBuffer::with_capacity((), ROOM) {
                Ok(ring) => ring,
                Err(never) => match never {},
            };
            let mut queue = VecDeque::new();
            let mut rest = calls;
            for value in 0..10u8 {
                match rest % 3 {
                    0 | 1 => {
                        ring.push_back(value);
                        queue.push_back(value);
                        if queue.len() > ROOM {
                            queue.pop_front();
                        }
                    }
                    _ => assert_eq!(ring.pop_front(), queue.pop_front()),
                }
                assert_eq!(ring.is_empty(), queue.is_empty());
                rest /= 3;
            }
            if calls % 7 == 0 {
                ring.clear();
                queue.clear();
            }
            while let Some(value) = queue.pop_front() {
                assert_eq!(ring.pop_front(), Some(value));
            }
            assert_eq!(ring.pop_front(), None);
        }
    }
}
