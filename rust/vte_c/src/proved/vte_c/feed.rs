// Written by tools/erase from crates/vte_c/src/feed.rt: edit that one.
//! From bytes to events.

use crate::proved::vte_c::event::VteEvent;
use crate::proved::vte_c::event_writer::{EventWriter, MAX_PIECE_BYTES};
use vte::{Parser, Saved};

/// The number of events for which there must be room: what two bytes add.
pub(crate) const MIN_EVENTS: usize = 4;

/// The number of data bytes for which there must be room: more than two bytes add (at most 1,376).
/// Callers compile the number in (`VTE_MIN_DATA` of vte.h), so it stays. A call then reads at least
/// one byte, for which 3 events and 1,095 bytes would do: U+FFFD comes first for a character that
/// this byte breaks, and then there must be room for what one byte may add.
pub(crate) const MIN_DATA: usize = 2112;

/// The return value of a call with less room, which is no count of bytes.
pub(crate) const NO_ROOM: usize = usize::MAX;

/// The parser that a call restores from what the caller keeps.
type RestoredParser = Parser<MAX_PIECE_BYTES>;

/// How many events, and how many bytes of the data area, a call wrote. `bytes` is `data` in vte.h,
/// which is a keyword of specs.
#[repr(C)]
#[derive(Clone, Copy)]
pub struct VteCounts {
    pub events: usize,
    pub bytes: usize,
}

/// Reads bytes until they end, the buffers are nearly full, or an event that stops was written.
/// Returns how many were read.
pub(crate) fn feed(
    parser: &mut Saved,
    bytes: &[u8],
    kinds: u32,
    stop_kinds: u32,
    events: &mut [VteEvent],
    data_area: &mut [u8],
    counts: &mut VteCounts,
) -> usize {
    *counts = VteCounts {
        events: 0,
        bytes: 0,
    };
    if events.len() < MIN_EVENTS || data_area.len() < MIN_DATA {
        return NO_ROOM;
    }
    let (record_capacity, data_capacity) = (events.len(), data_area.len());
    // Records have 32 bits for positions in the input.
    let end = bytes.len().min(u32::MAX as usize);
    let bytes = &bytes[..end];
    let mut writer = EventWriter::new(events, data_area, kinds, stop_kinds);
    let read = read_into(parser, bytes, &mut writer);
    *counts = VteCounts {
        events: writer.record_count().min(record_capacity),
        bytes: writer.data_used().min(data_capacity),
    };
    read
}

/// Reads bytes into empty buffers.
fn read_into(saved: &mut Saved, bytes: &[u8], writer: &mut EventWriter<'_>) -> usize {
    let mut parser = Parser::new();
    parser.restore(saved);
    let read = read_until_full(&mut parser, bytes, writer);
    parser.save(saved);
    read
}

/// Reads bytes until they end or the buffers are full.
fn read_until_full(
    parser: &mut RestoredParser,
    bytes: &[u8],
    writer: &mut EventWriter<'_>,
) -> usize {
    let mut position = 0;
    while position < bytes.len() && !writer.must_return() {
        let read = read_more(parser, bytes, position, writer);
        if read == 0 {
            return position;
        }
        position += read;
    }
    position
}

/// Reads bytes up to and including a run of text or data, and writes the record of the run.
fn read_more(
    parser: &mut RestoredParser,
    bytes: &[u8],
    from: usize,
    writer: &mut EventWriter<'_>,
) -> usize {
    let run = parser.advance_to_run(writer, &bytes[from..]);
    writer.write_taken(from, run, parser.command_lost_data());
    run.end
}
