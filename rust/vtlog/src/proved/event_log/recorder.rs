// Written by tools/erase from crates/event_log/src/recorder.rt: edit that one.
//! The performer that writes lines.

use crate::proved::event_log::collector::{Collector, LogParser};
use crate::proved::event_log::lines::{line_of_execute, line_of_put, LogBuffer};
use vte::{Params, Perform};

/// Collects one line per event in a buffer of 8,192 bytes.
///
/// A line that doesn't fit is dropped. The recorder is terminated when it holds more than 4,096
/// bytes.
pub struct Recorder {
    lines: LogBuffer,
}

impl Recorder {
    /// Creates an empty recorder.
    pub fn new() -> Self {
        Recorder {
            lines: LogBuffer::new(),
        }
    }

    /// Returns the collected lines.
    pub fn bytes(&self) -> &[u8] {
        self.lines.bytes()
    }

    /// Removes the lines, and forgets that any was lost.
    pub fn clear(&mut self) {
        self.lines.clear();
    }

    /// Appends the line of a control sequence or a device control string.
    // Inlined, so that the length of the name is a constant.
    #[inline(always)]
    fn append_sequence(
        &mut self,
        name: &[u8],
        params: &Params,
        intermediates: &[u8],
        ignore: bool,
        action: char,
    ) {
        self.lines.begin();
        self.lines.push(name);
        self.lines
            .push_sequence_fields(params, intermediates, ignore, action);
        self.lines.push(b"\n");
        self.lines.end();
    }
}

impl Perform for Recorder {
    #[inline(always)]
    fn print(&mut self, c: char) {
        self.lines.append_print(c);
    }

    fn execute(&mut self, byte: u8) {
        self.lines.append(&line_of_execute(byte));
    }

    fn hook(&mut self, params: &Params, intermediates: &[u8], ignore: bool, action: char) {
        self.append_sequence(b"hook", params, intermediates, ignore, action);
    }

    fn put(&mut self, byte: u8) {
        self.lines.append(&line_of_put(byte));
    }

    fn unhook(&mut self) {
        self.lines.append(b"unhook\n");
    }

    fn osc_dispatch(&mut self, params: &[&[u8]], bell_terminated: bool) {
        self.lines.begin();
        self.lines.push(b"osc");
        self.lines.push_flag_field(bell_terminated);
        self.lines.push_pieces_fields(params);
        self.lines.push(b"\n");
        self.lines.end();
    }

    fn csi_dispatch(&mut self, params: &Params, intermediates: &[u8], ignore: bool, action: char) {
        self.append_sequence(b"csi", params, intermediates, ignore, action);
    }

    fn esc_dispatch(&mut self, intermediates: &[u8], ignore: bool, byte: u8) {
        self.lines.begin();
        self.lines.push(b"esc");
        self.lines.push_hex_field(intermediates);
        self.lines.push_flag_field(ignore);
        self.lines.push(b" ");
        self.lines.push_hex_byte(byte);
        self.lines.push(b"\n");
        self.lines.end();
    }

    fn terminated(&self) -> bool {
        self.lines.is_to_be_written()
    }
}

impl Collector for Recorder {
    fn collect<'a>(&mut self, parser: &mut LogParser, bytes: &'a [u8]) -> &'a [u8] {
        let read = parser.advance_until_terminated(self, bytes);
        &bytes[read..]
    }

    fn collected_text(&self) -> &[u8] {
        self.bytes()
    }

    fn clear(&mut self) {
        self.clear();
    }
}
