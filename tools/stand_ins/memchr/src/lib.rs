//! Stands in for the crate `memchr` in the C library: the searches of the C library that it is
//! linked with.
#![no_std]

use core::ffi::c_void;

extern "C" {
    #[link_name = "memchr"]
    fn first(bytes: *const c_void, byte: i32, count: usize) -> *const c_void;
    #[link_name = "memrchr"]
    fn last(bytes: *const c_void, byte: i32, count: usize) -> *const c_void;
}

/// Returns where a byte first stands.
pub fn memchr(byte: u8, bytes: &[u8]) -> Option<usize> {
    // SAFETY: the bytes are a slice's
    let found = unsafe { first(bytes.as_ptr().cast(), i32::from(byte), bytes.len()) };
    pointer(found, bytes)
}

/// Returns where a byte last stands.
pub fn memrchr(byte: u8, bytes: &[u8]) -> Option<usize> {
    // SAFETY: the bytes are a slice's
    let found = unsafe { last(bytes.as_ptr().cast(), i32::from(byte), bytes.len()) };
    pointer(found, bytes)
}

fn pointer(found: *const c_void, bytes: &[u8]) -> Option<usize> {
    (!found.is_null()).then(|| found as usize - bytes.as_ptr() as usize)
}
