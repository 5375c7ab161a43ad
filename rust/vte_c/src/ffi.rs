//! The functions of vte.h. C passes pointers, and the parser takes references, which needs
//! `unsafe`.
//!
//! The callers' rules of vte.h are what makes it sound. No pointer is null, unless its length is 0,
//! and each points to as many elements as its length says, or to one. What is written overlaps
//! nothing else that is passed, and no other thread uses it during the call. All types here are
//! plain numbers without padding that is read, so any bytes are values of them.
#![allow(unsafe_code)]
#![allow(clippy::missing_safety_doc, clippy::too_many_arguments)]

use crate::proved::vte_c;
use crate::proved::vte_c::{VteCounts, VteEvent};
use core::slice::{from_raw_parts, from_raw_parts_mut};
use vte::Saved;

/// Returns the elements at a pointer, which may be null if there are none.
pub(crate) unsafe fn slice<'a, T>(pointer: *const T, length: usize) -> &'a [T] {
    match length {
        0 => &[],
        // SAFETY: the callers' rules above
        _ => unsafe { from_raw_parts(pointer, length) },
    }
}

/// The same, to be written.
pub(crate) unsafe fn slice_mut<'a, T>(pointer: *mut T, length: usize) -> &'a mut [T] {
    match length {
        0 => &mut [],
        // SAFETY: the callers' rules above
        _ => unsafe { from_raw_parts_mut(pointer, length) },
    }
}

/// Reads bytes, and writes the events of some kinds that they add to the stream. Returns how many
/// bytes were read.
#[no_mangle]
pub unsafe extern "C" fn vte_feed(
    parser: *mut Saved,
    bytes: *const u8,
    length: usize,
    kinds: u32,
    stop_kinds: u32,
    events: *mut VteEvent,
    event_room: usize,
    data_area: *mut u8,
    data_room: usize,
    counts: *mut VteCounts,
) -> usize {
    // SAFETY: the callers' rules above
    unsafe {
        vte_c::vte_feed(
            &mut *parser,
            slice(bytes, length),
            kinds,
            stop_kinds,
            slice_mut(events, event_room),
            slice_mut(data_area, data_room),
            &mut *counts,
        )
    }
}

/// Reads bytes, and writes the text that is left without the sequences. Returns how many bytes were
/// read.
#[no_mangle]
pub unsafe extern "C" fn vte_strip(
    parser: *mut Saved,
    bytes: *const u8,
    length: usize,
    text: *mut u8,
    text_room: usize,
    written: *mut usize,
) -> usize {
    // SAFETY: the callers' rules above
    unsafe {
        vte_c::vte_strip(
            &mut *parser,
            slice(bytes, length),
            slice_mut(text, text_room),
            &mut *written,
        )
    }
}

/// Returns what is unfinished, or 0.
#[no_mangle]
pub unsafe extern "C" fn vte_is_open(parser: *const Saved) -> u8 {
    // SAFETY: the callers' rules above
    vte_c::vte_is_open(unsafe { &*parser })
}

/// Exports functions without arguments.
macro_rules! export {
    ($($name:ident: $number:ty;)*) => {
        $(#[no_mangle]
        pub extern "C" fn $name() -> $number {
            vte_c::$name()
        })*
    };
}

export! {
    vte_version: u32;
    vte_parser_size: usize;
    vte_event_size: usize;
    vte_min_events: usize;
    vte_min_data: usize;
    vte_min_text: usize;
}

/// Ends the program. rustc checks each index; that all are within bounds is proved, so nothing gets
/// here.
#[cfg(not(any(test, feature = "std")))]
#[panic_handler]
fn panic(_: &core::panic::PanicInfo<'_>) -> ! {
    extern "C" {
        fn abort() -> !;
    }
    // SAFETY: the function of C with this name takes nothing and doesn't return
    unsafe { abort() }
}
