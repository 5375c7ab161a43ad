//! A parser for C without a limit on operating system commands. Written by hand over the proved
//! parser, which stops for memory; the records and the data area are written by proved code. Its
//! `feed`, `read_until_full` and `read_more` are those of `vte_c`'s feed.rt: change both together.
//!
//! The callers' rules of vte_long.h make it sound: they are those of ffi.rs, and a parser is one
//! that `vte_long_parser_new` returned and that isn't freed.
#![allow(unsafe_code)]
#![allow(clippy::missing_safety_doc, clippy::too_many_arguments)]

use crate::ffi::{slice, slice_mut};
use crate::memory;
use crate::proved::vte_c::{
    event, EventWriter, VteCounts, VteEvent, MIN_DATA, MIN_EVENTS, NO_ROOM,
};
use alloc::boxed::Box;
use alloc::vec::Vec;
use vte::{skip_to_command, InternalCalls as _, LongParser, Refused};

/// What a call returns if memory was refused before it read a byte.
const REFUSED: usize = usize::MAX - 1;

/// How many bytes a call reads at most. There is room for all their data.
const SLICE_SIZE: usize = 1 << 16;

/// The room for what a byte of a call adds: it may begin a piece, whose length has 4 bytes, and be
/// a byte of a piece. A number adds 3, with its group, and so does a malformed byte, by U+FFFD.
const DATA_PER_BYTE: usize = 4 + 1;

/// The room for what was open before a call, besides the stored bytes: 16 lengths of pieces (64),
/// or 32 groups of one number (96), or a character (3). The rest is more than what a writer keeps
/// free before it reads on (1,092), so the data area is never nearly full.
const DATA_BEFORE: usize = MIN_DATA;

/// A parser and its data area.
pub struct VteLongParser {
    parser: LongParser,
    data: Vec<u8>,
}

/// Makes room for the data of a call, whose offsets have 32 bits.
fn reserve(data: &mut Vec<u8>, size: usize) -> Result<(), Refused> {
    if size <= data.len() {
        return Ok(());
    }
    if size > u32::MAX as usize || data.try_reserve(size - data.len()).is_err() {
        return Err(Refused { read: 0 });
    }
    data.resize(size, 0);
    Ok(())
}

/// Reads up to a run, and writes the run, or skips what is before the next command.
fn read_more(
    parser: &mut LongParser,
    bytes: &[u8],
    from: usize,
    kinds: u32,
    writer: &mut EventWriter<'_>,
) -> Result<usize, Refused> {
    let unread = &bytes[from..];
    if kinds == 1 << event::OSC && !parser.is_open() {
        let count = skip_to_command(unread);
        if count > 0 {
            return Ok(count);
        }
    }
    let run = parser.advance_to_run(writer, unread)?;
    writer.write_taken(from, run, parser.command_lost_data());
    Ok(run.end)
}

/// Reads bytes until they end, the buffers are full, a stop comes or memory is refused. Returns how
/// many were read, and whether memory was refused.
fn read_until_full(
    parser: &mut LongParser,
    bytes: &[u8],
    kinds: u32,
    writer: &mut EventWriter<'_>,
) -> (usize, bool) {
    let mut position = 0;
    while position < bytes.len() && !writer.must_return() {
        match read_more(parser, bytes, position, kinds, writer) {
            Ok(0) => break,
            Ok(read) => position += read,
            Err(refused) => return (position + refused.read, true),
        }
    }
    (position, false)
}

/// Makes room, reads bytes, and returns how many, or what `vte_long_feed` returns instead.
fn feed(
    VteLongParser { parser, data }: &mut VteLongParser,
    bytes: &[u8],
    kinds: u32,
    stop_kinds: u32,
    events: &mut [VteEvent],
    data_area: &mut *const u8,
    counts: &mut VteCounts,
) -> usize {
    *counts = VteCounts {
        events: 0,
        bytes: 0,
    };
    *data_area = data.as_ptr();
    if events.len() < MIN_EVENTS {
        return NO_ROOM;
    }
    let size = parser.stored() + DATA_PER_BYTE * bytes.len() + DATA_BEFORE;
    if reserve(data, size).is_err() {
        return REFUSED;
    }
    *data_area = data.as_ptr();
    let mut writer = EventWriter::new(events, data, kinds, stop_kinds);
    let (read, is_refused) = read_until_full(parser, bytes, kinds, &mut writer);
    *counts = VteCounts {
        events: writer.record_count(),
        bytes: writer.data_used(),
    };
    match (read, writer.record_count(), is_refused) {
        (0, 0, true) => REFUSED,
        _ => read,
    }
}

/// Returns a new parser, or null if memory is refused.
#[no_mangle]
pub extern "C" fn vte_long_parser_new() -> *mut VteLongParser {
    memory::boxed(VteLongParser {
        parser: LongParser::new(),
        data: Vec::new(),
    })
}

/// Frees a parser.
#[no_mangle]
pub unsafe extern "C" fn vte_long_parser_free(parser: *mut VteLongParser) {
    if !parser.is_null() {
        // SAFETY: the callers' rules above
        drop(unsafe { Box::from_raw(parser) });
    }
}

/// Returns what is unfinished, or 0.
#[no_mangle]
pub unsafe extern "C" fn vte_long_is_open(parser: *const VteLongParser) -> u8 {
    // SAFETY: the callers' rules above
    unsafe { &*parser }.parser.open() as u8
}

/// Reads bytes, and writes the events of some kinds that they add to the stream. Returns how many
/// bytes were read.
#[no_mangle]
pub unsafe extern "C" fn vte_long_feed(
    parser: *mut VteLongParser,
    bytes: *const u8,
    length: usize,
    kinds: u32,
    stop_kinds: u32,
    events: *mut VteEvent,
    event_room: usize,
    data_area: *mut *const u8,
    counts: *mut VteCounts,
) -> usize {
    // SAFETY: the callers' rules above
    unsafe {
        feed(
            &mut *parser,
            slice(bytes, length.min(SLICE_SIZE)),
            kinds,
            stop_kinds,
            slice_mut(events, event_room),
            &mut *data_area,
            &mut *counts,
        )
    }
}
