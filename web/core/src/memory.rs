//! What stands in the module's memory, and the memory that is asked for.

use core::cell::RefCell;

/// A value of the module. WebAssembly has one thread here, and no call of the module runs inside another.
pub struct Kept<T>(RefCell<T>);

// SAFETY: the module has one thread.
unsafe impl<T> Sync for Kept<T> {}

impl<T> Kept<T> {
    /// Keeps a value.
    pub const fn new(value: T) -> Kept<T> {
        Kept(RefCell::new(value))
    }

    /// Lends it.
    pub fn with<R>(&self, act: impl FnOnce(&mut T) -> R) -> R {
        act(&mut self.0.borrow_mut())
    }
}

#[cfg(target_arch = "wasm32")]
mod alone {
    use core::alloc::{GlobalAlloc, Layout};
    use core::arch::wasm32::{memory_grow, memory_size};
    use core::cell::UnsafeCell;

    const PAGE: usize = 65_536;
    /// The most memory of an instance: room for the longest text, and what is made of it.
    const MOST: usize = 512 * PAGE;

    unsafe extern "C" {
        /// Where the linker put the end of all else.
        static __heap_base: u8;
    }

    /// Memory as a stack, behind all else: what was given last can grow, and comes back when it is freed. A device keeps what it
    /// takes at its start, a descriptor what it takes when it is parsed, and a reading frees its vectors in reverse order; so
    /// nothing that is freed in another order has to come back.
    struct Arena {
        /// Where it ends, 0 before anything was given.
        end: UnsafeCell<usize>,
    }

    // SAFETY: the module has one thread.
    unsafe impl Sync for Arena {}

    impl Arena {
        fn end(&self) -> usize {
            // SAFETY: one thread, and no reference to it outlives a call.
            let end = unsafe { *self.end.get() };
            if end == 0 { (&raw const __heap_base).addr() } else { end }
        }

        fn use_up_to(&self, end: usize) {
            // SAFETY: as above.
            unsafe { *self.end.get() = end }
        }

        /// Whether there is memory up to an end: what is missing is asked for.
        fn has(end: usize) -> bool {
            let missing = end.saturating_sub(memory_size(0) * PAGE).div_ceil(PAGE);
            end <= MOST && (missing == 0 || memory_grow(0, missing) != usize::MAX)
        }

        /// Whether a block is the last one that was given.
        fn is_last(&self, block: *mut u8, size: usize) -> bool {
            block.addr() + size == self.end()
        }
    }

    // SAFETY: a block is behind all else that the module has, inside of its memory, and overlaps no other that is in use: each
    // begins where the last one ended.
    unsafe impl GlobalAlloc for Arena {
        unsafe fn alloc(&self, layout: Layout) -> *mut u8 {
            let from = self.end().next_multiple_of(layout.align());
            match from.checked_add(layout.size()) {
                Some(end) if Arena::has(end) => {
                    self.use_up_to(end);
                    core::ptr::with_exposed_provenance_mut(from)
                }
                _ => core::ptr::null_mut(),
            }
        }

        unsafe fn dealloc(&self, block: *mut u8, layout: Layout) {
            if self.is_last(block, layout.size()) {
                self.use_up_to(block.addr());
            }
        }

        unsafe fn realloc(&self, block: *mut u8, layout: Layout, size: usize) -> *mut u8 {
            if self.is_last(block, layout.size()) && Arena::has(block.addr().saturating_add(size)) {
                self.use_up_to(block.addr() + size);
                return block;
            }
            // SAFETY: what the caller keeps of `realloc` is what `alloc` and the copy ask for.
            unsafe {
                let new = self.alloc(Layout::from_size_align_unchecked(size, layout.align()));
                if !new.is_null() {
                    core::ptr::copy_nonoverlapping(block, new, layout.size().min(size));
                }
                new
            }
        }
    }

    #[global_allocator]
    static ARENA: Arena = Arena { end: UnsafeCell::new(0) };

    #[panic_handler]
    fn panic(_: &core::panic::PanicInfo) -> ! {
        core::arch::wasm32::unreachable()
    }
}
