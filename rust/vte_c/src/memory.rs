//! Memory, which parsers and processors without a limit take from C.
#![allow(unsafe_code)]

use alloc::alloc::alloc;
use core::alloc::Layout;

/// Moves a value to memory of its own, for `Box::from_raw`. Returns null if memory is refused.
pub(crate) fn boxed<T>(value: T) -> *mut T {
    // SAFETY: the types that are moved have a size
    let pointer = unsafe { alloc(Layout::new::<T>()) }.cast::<T>();
    if !pointer.is_null() {
        // SAFETY: the memory is new, and that of a `T`
        unsafe { pointer.write(value) };
    }
    pointer
}

#[cfg(not(any(test, feature = "std")))]
mod heap {
    use core::alloc::{GlobalAlloc, Layout};
    use core::mem::size_of;
    use core::ptr;

    extern "C" {
        fn malloc(size: usize) -> *mut u8;
        fn realloc(pointer: *mut u8, size: usize) -> *mut u8;
        fn free(pointer: *mut u8);
    }

    /// The memory of C.
    struct Heap;

    #[global_allocator]
    static HEAP: Heap = Heap;

    // SAFETY: these are C's functions, which keep the rules of `GlobalAlloc`. They align memory for
    // every type of C, and what needs more is refused.
    unsafe impl GlobalAlloc for Heap {
        unsafe fn alloc(&self, layout: Layout) -> *mut u8 {
            if layout.align() > 2 * size_of::<usize>() {
                return ptr::null_mut();
            }
            // SAFETY: any size may be asked for
            unsafe { malloc(layout.size()) }
        }

        unsafe fn dealloc(&self, pointer: *mut u8, _: Layout) {
            // SAFETY: the caller has the pointer from here
            unsafe { free(pointer) }
        }

        unsafe fn realloc(&self, pointer: *mut u8, _: Layout, size: usize) -> *mut u8 {
            // SAFETY: as above
            unsafe { realloc(pointer, size) }
        }
    }
}
