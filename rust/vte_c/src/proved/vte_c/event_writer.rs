// Written by tools/erase from crates/vte_c/src/event_writer.rt: edit that one.
//! The performer that writes events into the caller's buffers.

mod data;
mod pause;

use crate::proved::vte_c::event::{self, contains_kind, VteEvent};
use vte::{Params, Perform, Run, Taken};

/// How many pieces of a command the parser keeps.
const MAX_PIECES: usize = 16;

/// How many data bytes of a command the parser keeps.
pub(crate) const MAX_PIECE_BYTES: usize = 1024;

/// The most data bytes of one event: of a command, each piece after four bytes with its length.
pub(crate) const MAX_EVENT_DATA: usize = MAX_PIECE_BYTES + 4 * MAX_PIECES;

/// The most data bytes of what one byte of a stream adds: an event, and a character after it.
const MAX_DATA_PER_BYTE: usize = MAX_EVENT_DATA + 4;

/// Returns whether a command has 16 pieces, or at least 1,024 bytes with the lengths of its pieces.
/// Only such a command may have lost data.
fn is_at_limit(pieces: usize, size: usize) -> bool {
    pieces >= MAX_PIECES || size >= MAX_PIECE_BYTES
}

/// Returns the bytes of a group with one number.
fn encode_single_number(number: u16) -> [u8; 3] {
    [1, (number % 256) as u8, (number / 256) as u8]
}

/// Writes events of some kinds into the caller's buffers, each as a whole or not at all.
///
/// It is terminated if there is no room for what one byte may add: two events, and the data of one
/// and of a character. It is also terminated after an event of the kinds that stop, and after a
/// command that may have lost data, so that the parser can be asked whether it has.
pub(crate) struct EventWriter<'a> {
    records: &'a mut [VteEvent],
    area: &'a mut [u8],
    /// How many data bytes there is room for, at offsets of 32 bits.
    data_capacity: usize,
    /// How many records were written.
    record_count: usize,
    /// How many data bytes were written.
    data_used: usize,
    /// The kinds of events to write.
    kinds: u32,
    /// The kinds of events after which to stop.
    stop_kinds: u32,
    /// Whether a record of these kinds was written.
    has_stopped: bool,
    /// Whether a command came about which the parser wasn't asked yet.
    is_paused: bool,
    /// The index of that command's record.
    command_index: usize,
    /// The number of records at which the buffers are full: 0 once a record that stops was written,
    /// in a pause, and if the area has little room left.
    full_at: usize,
}

impl<'a> EventWriter<'a> {
    /// Creates a performer that has written nothing, and writes into these buffers.
    pub(crate) fn new(
        records: &'a mut [VteEvent],
        area: &'a mut [u8],
        kinds: u32,
        stop_kinds: u32,
    ) -> Self {
        let full_at = records.len() - 1;
        let data_capacity = area.len().min(u32::MAX as usize);
        EventWriter {
            records,
            area,
            data_capacity,
            record_count: 0,
            data_used: 0,
            kinds,
            stop_kinds,
            has_stopped: false,
            is_paused: false,
            command_index: 0,
            full_at,
        }
    }

    /// Returns whether events of a kind are written.
    #[inline(always)]
    fn is_wanted(&self, kind: u8) -> bool {
        contains_kind(self.kinds, kind)
    }

    /// Returns whether there may be no room for what one byte adds, or a stop or a pause has come.
    pub(crate) fn must_return(&self) -> bool {
        self.record_count >= self.full_at
    }

    /// Returns how many records were written.
    pub(crate) fn record_count(&self) -> usize {
        self.record_count
    }

    /// Returns how many data bytes were written.
    pub(crate) fn data_used(&self) -> usize {
        self.data_used
    }

    /// Writes a record, if there is room for it.
    #[inline(always)]
    fn write_record(&mut self, record: VteEvent) {
        let count = self.record_count;
        if count < self.records.len() {
            self.records[count] = record;
            self.record_count = count + 1;
            if contains_kind(self.stop_kinds, record.kind) {
                self.has_stopped = true;
                self.full_at = 0;
            }
        }
    }

    /// Writes the record of an event without data.
    #[inline(always)]
    fn write_without_data(&mut self, record: VteEvent) {
        if self.is_wanted(record.kind) {
            self.write_record(VteEvent {
                start: self.data_used as u32,
                ..record
            });
        }
    }

    /// Writes the record and the data of an event, if there is room for both.
    #[inline(always)]
    fn write_event(&mut self, record: VteEvent, bytes: &[u8]) {
        let end = self.write(self.data_used, bytes);
        self.finish_event(record, end);
    }

    /// Writes what the parser took of the bytes from an offset on: a run, which is in the input, or
    /// nothing. A pause, in which it takes nothing, ends here.
    #[inline(always)]
    pub(crate) fn write_taken(&mut self, from: usize, run: Run<'_>, lost_data: bool) {
        let start = (from + run.start) as u32;
        match run.taken {
            Taken::Text(text) => {
                if self.is_wanted(event::TEXT) {
                    self.write_record(VteEvent::new_run(event::TEXT, start, text.len() as u32));
                }
            }
            Taken::Data(data) => {
                if self.is_wanted(event::DATA) {
                    self.write_record(VteEvent::new_run(event::DATA, start, data.len() as u32));
                }
            }
            Taken::Nothing => self.resume(lost_data),
        }
    }

    /// Writes a character.
    #[inline(always)]
    fn write_character(&mut self, c: char) {
        if self.is_wanted(event::TEXT) {
            let mut bytes = [0; 4];
            let text = c.encode_utf8(&mut bytes).as_bytes();
            let record = VteEvent::new(event::TEXT, text.len() as u32).with_flag(true);
            self.write_event(record, text);
        }
    }

    /// Writes a sequence with parameters. Most have one number.
    #[inline(always)]
    fn write_sequence(
        &mut self,
        kind: u8,
        params: &Params,
        intermediates: &[u8],
        ignore: bool,
        action: char,
    ) {
        let mut groups = params.iter();
        match (groups.next(), groups.next(), intermediates) {
            (Some([number]), None, []) => {
                self.write_single_number_sequence(kind, *number, ignore, action);
            }
            _ => self.write_any_sequence(kind, params, intermediates, ignore, action),
        }
    }

    /// Writes a sequence with one number.
    #[inline(always)]
    fn write_single_number_sequence(&mut self, kind: u8, number: u16, ignore: bool, action: char) {
        if self.is_wanted(kind) {
            let record = VteEvent::new(kind, action as u32)
                .with_flag(ignore)
                .with_count(1);
            self.write_event(record, &encode_single_number(number));
        }
    }

    /// Writes any sequence with parameters.
    #[inline(never)]
    fn write_any_sequence(
        &mut self,
        kind: u8,
        params: &Params,
        intermediates: &[u8],
        ignore: bool,
        action: char,
    ) {
        if self.is_wanted(kind) {
            let end = self.write_groups(params);
            let record = VteEvent::new(kind, action as u32)
                .with_intermediates(intermediates)
                .with_flag(ignore)
                .with_count(params.iter().size_hint().0);
            self.finish_event(record, end);
        }
    }

    /// Writes an operating system command.
    fn write_command(&mut self, pieces: &[&[u8]], bell_terminated: bool) {
        if self.is_wanted(event::OSC) {
            let (command_index, start) = (self.record_count, self.data_used);
            let end = self.write_pieces(pieces);
            let record = VteEvent::new(event::OSC, 0)
                .with_flag(bell_terminated)
                .with_count(pieces.len());
            self.finish_event(record, end);
            self.pause_if(is_at_limit(pieces.len(), end - start), command_index);
        }
    }

    /// Writes the record of an event whose data were written up to `end`, if that is in the area.
    #[inline(always)]
    fn finish_event(&mut self, record: VteEvent, end: usize) {
        if end <= self.data_capacity && self.record_count < self.records.len() {
            let start = self.data_used as u32;
            self.data_used = end;
            if self.data_capacity - self.data_used < MAX_DATA_PER_BYTE {
                self.full_at = 0;
            }
            self.write_record(VteEvent { start, ..record });
        }
    }
}

impl Perform for EventWriter<'_> {
    /// Writes a character that isn't in the input as it is.
    fn print(&mut self, c: char) {
        // rustc knows the bytes of the one for malformed sequences.
        if c == char::REPLACEMENT_CHARACTER {
            self.write_character(char::REPLACEMENT_CHARACTER);
        } else {
            self.write_character(c);
        }
    }

    // Inlined, it would slow down what comes before each sequence.
    #[inline(never)]
    fn execute(&mut self, byte: u8) {
        self.write_without_data(VteEvent::new(event::EXECUTE, u32::from(byte)));
    }

    fn hook(&mut self, params: &Params, intermediates: &[u8], ignore: bool, action: char) {
        self.write_sequence(event::HOOK, params, intermediates, ignore, action);
    }

    /// Writes a byte of data that isn't in the input: `advance_to_run` performs none.
    fn put(&mut self, byte: u8) {
        if self.is_wanted(event::DATA) {
            self.write_event(VteEvent::new(event::DATA, 1).with_flag(true), &[byte]);
        }
    }

    fn unhook(&mut self) {
        self.write_without_data(VteEvent::new(event::UNHOOK, 0));
    }

    fn osc_dispatch(&mut self, params: &[&[u8]], bell_terminated: bool) {
        self.write_command(params, bell_terminated);
    }

    #[inline(always)]
    fn csi_dispatch(&mut self, params: &Params, intermediates: &[u8], ignore: bool, action: char) {
        self.write_sequence(event::CSI, params, intermediates, ignore, action);
    }

    fn esc_dispatch(&mut self, intermediates: &[u8], ignore: bool, byte: u8) {
        let record = VteEvent::new(event::ESC, u32::from(byte))
            .with_intermediates(intermediates)
            .with_flag(ignore);
        self.write_without_data(record);
    }

    fn terminated(&self) -> bool {
        self.must_return()
    }
}
