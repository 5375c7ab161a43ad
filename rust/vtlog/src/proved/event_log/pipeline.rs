// Written by tools/erase from crates/event_log/src/pipeline.rt: edit that one.
//! The loops that read a stream in chunks and write what is collected of each.

use crate::proved::event_log::collector::{Collector, LogParser};
use crate::proved::event_log::device::{Sink, Source};
use crate::proved::event_log::fault::Fault;
use crate::proved::event_log::plain::Plain;
use crate::proved::event_log::recorder::Recorder;

/// The most bytes that are read at once.
const CHUNK_SIZE: usize = 4096;

/// Reads to the end, and writes one line per event.
///
/// The reader is read in chunks of up to 4,096 bytes, and the lines of each chunk are written and
/// flushed before the next read. A sequence that is unfinished at the end gives no line.
///
/// # Errors
///
/// Ends at the first failed read or write. Everything read before a failed read has been written.
pub fn run<R: Source, W: Sink>(reader: &mut R, writer: &mut W) -> Result<(), Fault> {
    run_with(&mut Recorder::new(), reader, writer)
}

/// Reads to the end, and writes the text without its sequences.
///
/// It reads, writes, flushes and fails as [`run`] does. A character that is unfinished at the end
/// gives no text.
pub fn run_text<R: Source, W: Sink>(reader: &mut R, writer: &mut W) -> Result<(), Fault> {
    run_with(&mut Plain::new(), reader, writer)
}

/// Reads to the end, and writes what the collector collects.
fn run_with<C: Collector, R: Source, W: Sink>(
    collector: &mut C,
    reader: &mut R,
    writer: &mut W,
) -> Result<(), Fault> {
    let mut parser = LogParser::new();
    let mut buffer = [0; CHUNK_SIZE];
    for _ in 0..u64::MAX {
        let count = match reader.read(&mut buffer) {
            Ok(count) => count,
            _ => return Err(Fault::Read),
        };
        if count == 0 {
            return Ok(());
        }
        if write_chunk(&mut parser, collector, writer, &buffer[..count]).is_err() {
            return Err(Fault::Write);
        }
    }
    // Every loop is proved to end: this is after 2^64 - 1 reads.
    Err(Fault::Read)
}

/// Parses a chunk, and writes and flushes what the collector collects.
fn write_chunk<C: Collector, W: Sink>(
    parser: &mut LogParser,
    collector: &mut C,
    writer: &mut W,
    chunk: &[u8],
) -> Result<(), ()> {
    let mut unread = chunk;
    while !unread.is_empty() {
        unread = parse_and_write(parser, collector, writer, unread)?;
    }
    writer.flush()
}

/// Parses until it is time to write, and writes what the collector holds. Returns the unread bytes.
fn parse_and_write<'a, C: Collector, W: Sink>(
    parser: &mut LogParser,
    collector: &mut C,
    writer: &mut W,
    bytes: &'a [u8],
) -> Result<&'a [u8], ()> {
    let unread = collector.collect(parser, bytes);
    write_collected(collector, writer)?;
    Ok(unread)
}

/// Writes and clears the collected text.
fn write_collected<C: Collector, W: Sink>(collector: &mut C, writer: &mut W) -> Result<(), ()> {
    writer.write_all(collector.collected_text())?;
    collector.clear();
    Ok(())
}
