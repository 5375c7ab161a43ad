//! For tests: Rust allocates by Python, so that what refuses memory to Python refuses it
//! to Rust.

use std::alloc::{GlobalAlloc, Layout};
use std::os::raw::c_void;

extern "C" {
    fn PyMem_RawMalloc(size: usize) -> *mut c_void;
    fn PyMem_RawFree(pointer: *mut c_void);
}

struct PythonMemory;

#[global_allocator]
static MEMORY: PythonMemory = PythonMemory;

// SAFETY: Python's functions are `malloc` and `free` for any thread, with an alignment of 16
unsafe impl GlobalAlloc for PythonMemory {
    unsafe fn alloc(&self, layout: Layout) -> *mut u8 {
        assert!(layout.align() <= 16);
        // SAFETY: it takes any size
        unsafe { PyMem_RawMalloc(layout.size()).cast() }
    }

    unsafe fn dealloc(&self, pointer: *mut u8, _: Layout) {
        // SAFETY: what is freed was allocated above
        unsafe { PyMem_RawFree(pointer.cast()) }
    }
}
