//! How calls end that are refused memory and return no error.
use alloc::alloc::handle_alloc_error;
use core::alloc::Layout;

/// Ends the program, as a `Vec` does that is refused memory. The message has the number of unread
/// bytes: the number that was asked for isn't known.
#[cold]
pub(crate) fn end_without(unread: usize) -> ! {
    handle_alloc_error(Layout::array::<u8>(unread).unwrap_or(Layout::new::<u8>()))
}
