// Written by tools/erase from crates/vte/src/ansi/updates/release.rt: edit that one.
//! What a hold releases when bytes are added to it.

use crate::prelude::first_chunk;
use crate::proved::vte_types::C0;
use memchr::memrchr;

/// What a hold releases when bytes are added to it.
#[derive(Clone, Copy)]
pub(crate) struct Release {
    /// How many updates begin among the added bytes, after the last one that ends.
    pub(crate) begin_count: usize,
    /// How many bytes are released: none if no update ends, otherwise those before the next update,
    /// or all.
    pub(crate) released: usize,
}

/// Finds what a hold releases. `bytes` are those of the hold from `start` on: the new ones, and at
/// most seven before them. No update ends among the older ones, so it is enough to search `bytes`,
/// backward, down to the last end-update.
pub(crate) fn find_release(bytes: &[u8], start: usize) -> Release {
    let mut first_begin = start + bytes.len();
    let mut begin_count = 0;
    // A sequence has eight bytes, and only the first is ESC: none begins among the last seven
    // bytes, or the seven before an ESC.
    let mut unread = skip_blocks(bytes, bytes.len().saturating_sub(7));
    while let Some(position) = memrchr(C0::ESC, &bytes[..unread]) {
        unread = skip_blocks(bytes, position.saturating_sub(7));
        let sequence = &bytes[position..];
        if begins_update(sequence) {
            first_begin = start + position;
            begin_count += 1;
        } else if ends_update(sequence) {
            let released = first_begin;
            return Release {
                begin_count,
                released,
            };
        }
    }
    let released = 0;
    Release {
        begin_count,
        released,
    }
}

/// Goes back from a position over blocks in which neither sequence begins. Returns the position
/// before them.
fn skip_blocks(bytes: &[u8], before: usize) -> usize {
    let mut unread = before;
    while unread >= 32 {
        match first_chunk::<34>(&bytes[unread - 32..]) {
            Some(block) if has_no_private_sequence(block) => unread -= 32,
            _ => break,
        }
    }
    unread
}

/// Returns whether no ESC in the first 32 bytes of a block has `?` two bytes after it. Then neither
/// sequence begins there. Compilers turn the loop into vector instructions.
#[inline(always)]
fn has_no_private_sequence(block: &[u8; 34]) -> bool {
    let mut none_found = true;
    for index in 0..32 {
        none_found &= (block[index] != C0::ESC) | (block[index + 2] != b'?');
    }
    none_found
}

/// Returns whether the bytes start with a begin-update.
fn begins_update(bytes: &[u8]) -> bool {
    bytes.starts_with(b"\x1b[?2026h")
}

/// Returns whether the bytes start with an end-update.
fn ends_update(bytes: &[u8]) -> bool {
    bytes.starts_with(b"\x1b[?2026l")
}
