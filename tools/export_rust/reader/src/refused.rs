//! Growths that are refused, one in each run.

use crate::lines::in_pieces;
use std::alloc::{GlobalAlloc, Layout, System};
use std::fmt::Debug;
use std::ptr::null_mut;
use std::sync::atomic::{AtomicUsize, Ordering::Relaxed};
use wuzhikar_reader::{AllocError, Descriptor, ExtractError, Kind, ParseError, ParseFault, extract, parse, pressed};

/// The allocator, which refuses one growth: the one that finds 1 left.
struct Refusing;

/// How many growths are left up to the one that is refused, that one among them; none is refused where it is 0.
static LEFT: AtomicUsize = AtomicUsize::new(0);

fn refuses() -> bool {
    let left = LEFT.load(Relaxed);
    LEFT.store(left.saturating_sub(1), Relaxed);
    left == 1
}

unsafe impl GlobalAlloc for Refusing {
    unsafe fn alloc(&self, layout: Layout) -> *mut u8 {
        if refuses() { null_mut() } else { unsafe { System.alloc(layout) } }
    }

    unsafe fn dealloc(&self, at: *mut u8, layout: Layout) {
        unsafe { System.dealloc(at, layout) }
    }

    unsafe fn realloc(&self, at: *mut u8, layout: Layout, size: usize) -> *mut u8 {
        if refuses() { null_mut() } else { unsafe { System.realloc(at, layout, size) } }
    }
}

#[global_allocator]
static ALLOCATOR: Refusing = Refusing;

/// A refusal that says that memory was refused.
trait Memory {
    fn is_memory(&self) -> bool;
}

impl Memory for ParseError {
    fn is_memory(&self) -> bool {
        self.fault == ParseFault::Memory
    }
}

impl Memory for ExtractError {
    fn is_memory(&self) -> bool {
        *self == ExtractError::Memory
    }
}

impl Memory for AllocError {
    fn is_memory(&self) -> bool {
        true
    }
}

/// Makes a call again and again, each time with a later growth refused, until none is wanted: each time it says so, and the
/// same call answers as ever afterwards. The answer is how many were refused.
fn each_refused<T: PartialEq + Debug, E: PartialEq + Debug + Memory>(call: impl Fn() -> Result<T, E>) -> usize {
    let wanted = call();
    for growth in 1.. {
        LEFT.store(growth, Relaxed);
        let answer = call();
        let left = LEFT.swap(0, Relaxed);
        if left > 0 {
            assert_eq!(answer, wanted);
            return growth - 1;
        }
        assert!(answer.is_err_and(|error| error.is_memory()), "growth {growth} was refused, and nothing said so");
        assert_eq!(call(), wanted, "after growth {growth} was refused");
    }
    unreachable!("growths without end")
}

/// Refuses each growth while a text is parsed whole and in pieces, its descriptor copied, and a report read.
fn refused_for(text: &[u8]) -> usize {
    let mut refused = each_refused(|| parse(text)) + each_refused(|| in_pieces(text, 1)) + each_refused(|| in_pieces(text, 8));
    let Ok(descriptor) = parse(text) else {
        return refused;
    };
    let before = descriptor.clone();
    refused += each_refused(|| descriptor.try_clone());
    for report in reports(&descriptor) {
        refused += each_refused(|| extract(&descriptor, &report));
        if let Ok(found) = extract(&descriptor, &report) {
            refused += each_refused(|| pressed(&found));
        }
    }
    assert_eq!(descriptor, before);
    refused
}

/// A report of each ID, or one without, whose bits are in turn.
fn reports(descriptor: &Descriptor) -> Vec<Vec<u8>> {
    let ids = if descriptor.uses_ids() { 1..=255 } else { 0..=0 };
    let report = |id| {
        let mut bytes = vec![0x55; descriptor.report_len(Kind::Input, id)?];
        if id > 0 {
            bytes[0] = id;
        }
        Some(bytes)
    };
    ids.filter_map(report).collect()
}

/// Checks all texts.
pub fn check(texts: impl Iterator<Item = Vec<u8>>) {
    let (mut count, mut refused) = (0, 0);
    for text in texts {
        count += 1;
        refused += refused_for(&text);
    }
    assert!(refused > 0);
    println!("{count} texts, {refused} refused growths, each told, and nothing changed");
}
