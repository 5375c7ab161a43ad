// Written by tools/erase from crates/vte_core/src/parser/drive_to_run.rt: edit that one.
//! Runs of text and data in the input, for callers that take them from there.

use crate::proved::vte_core::buffer::Buffer;
use crate::proved::vte_core::class::ESCAPE;
use crate::proved::vte_core::parser::{Machine, Parser, Refused, State};
use crate::proved::vte_core::reader::{ByCharacter, CountedPerform, Reader, RunKind, RunRange};
use crate::proved::vte_core::utf8::{is_lead, is_printed_ascii};

impl<const OSC_RAW_BUF_SIZE: usize> Parser<OSC_RAW_BUF_SIZE> {
    /// Reads bytes up to a run, and finds the run.
    pub(crate) fn drive_to_run<P: CountedPerform<ByCharacter> + ?Sized>(
        &mut self,
        performer: &mut P,
        input: &[u8],
    ) -> RunRange {
        let reader = Reader {};
        let result = self.machine.drive_to_run(reader, performer, input);
        match result {
            Ok(range) => range,
            // Never: with a limit no memory is refused.
            Err(refused) => RunRange::empty(refused.read),
        }
    }
}

impl<B: Buffer> Machine<B> {
    /// Reads bytes up to a run, and finds the run. The state stays as it is before the run, because
    /// the bytes of the run lead back to it.
    pub(crate) fn drive_to_run<P: CountedPerform<ByCharacter> + ?Sized>(
        &mut self,
        reader: Reader,
        performer: &mut P,
        input: &[u8],
    ) -> Result<RunRange, Refused> {
        let mut position =
            self.continue_open_character::<P, ByCharacter, true>(reader, performer, input);
        while position < input.len() && !performer.terminated() {
            position = match self.state {
                State::Text(_) => {
                    // HT, LF and CR are reported by `execute`.
                    let layout = false;
                    let end = reader.find_run_end(input, position, layout);
                    if end > position {
                        return Ok(RunRange {
                            start: position,
                            end,
                            kind: RunKind::Text,
                        });
                    }
                    self.read_outside_runs(reader, performer, input, position)
                }
                State::DeviceData => {
                    let end = reader.find_device_data_end(input, position);
                    if end > position {
                        return Ok(RunRange {
                            start: position,
                            end,
                            kind: RunKind::Data,
                        });
                    }
                    let byte = reader.byte_at(input, position);
                    self.end_data_or_drop_byte::<P, ByCharacter, true>(
                        reader, performer, input, position, byte,
                    )
                }
                _ => {
                    self.read_by_state::<P, ByCharacter, true>(reader, performer, input, position)?
                }
            };
        }
        Ok(RunRange::empty(position))
    }

    /// Reads text at a position where no run begins: the character or malformed sequence of a lead
    /// byte, or controls and malformed bytes up to the next lead byte or printed ASCII, and an
    /// escape sequence that follows them.
    fn read_outside_runs<P: CountedPerform<ByCharacter> + ?Sized>(
        &mut self,
        reader: Reader,
        performer: &mut P,
        input: &[u8],
        from: usize,
    ) -> usize {
        let mut position = from;
        let mut byte = reader.byte_at(input, from);
        if is_lead(byte) {
            return self
                .read_character::<P, ByCharacter, true>(reader, performer, input, from, byte);
        }
        while byte != ESCAPE {
            reader.report_lone_byte(performer, byte);
            position += 1;
            if position == input.len() || performer.terminated() {
                return position;
            }
            byte = reader.byte_at(input, position);
            if is_printed_ascii(byte) || is_lead(byte) {
                return position;
            }
        }
        self.read_escape_in_text::<P, ByCharacter, true>(reader, performer, input, position)
    }
}
