// Written by tools/erase from crates/vte_core/src/parser/drive_single_byte.rt: edit that one.
//! A call of one byte that can't stop.
//!
//! `drive_loop` saves registers for its loops at each call. These functions have none, and those
//! that most bytes take do nothing after a call of another one, so they save no registers.

use crate::proved::vte_core::buffer::Buffer;
use crate::proved::vte_core::class::{is_device_data, is_parameter_byte, ESCAPE};
use crate::proved::vte_core::head::HeadProgress;
use crate::proved::vte_core::parser::{Machine, Refused, State};
use crate::proved::vte_core::reader::{CountedPerform, Granularity, Reader};
use crate::proved::vte_core::utf8::{is_lead, is_printed_ascii, Extension, OpenCharacter};

impl<B: Buffer> Machine<B> {
    /// Reads the one byte of a call that can't stop, or none if memory is refused for it.
    #[inline(never)]
    pub(crate) fn drive_single_byte<P: CountedPerform<G> + ?Sized, G: Granularity>(
        &mut self,
        reader: Reader,
        performer: &mut P,
        input: &[u8],
    ) -> Result<usize, Refused> {
        if let State::Text(opened) = self.state {
            if opened.is_empty() {
                return Ok(self.read_single_byte_of_text(reader, performer, input));
            }
            return Ok(self.read_continuing_byte(reader, performer, input, opened));
        }
        if let State::ControlSequence(reached) = self.state {
            return Ok(self.read_parameter_byte(reader, performer, input, reached));
        }
        self.read_single_byte_of_sequence(reader, performer, input)
    }

    /// Reads the one byte of a call in a text.
    #[inline(always)]
    fn read_single_byte_of_text<P: CountedPerform<G> + ?Sized, G: Granularity>(
        &mut self,
        reader: Reader,
        performer: &mut P,
        input: &[u8],
    ) -> usize {
        let byte = reader.byte_at(input, 0);
        if is_printed_ascii(byte) {
            performer.print_char(reader, char::from(byte));
            return 1;
        }
        self.read_single_control_or_non_ascii(reader, performer, input, byte)
    }

    /// Reads the one byte of a call in a text, if it isn't printed ASCII.
    #[inline(never)]
    fn read_single_control_or_non_ascii<P: CountedPerform<G> + ?Sized, G: Granularity>(
        &mut self,
        reader: Reader,
        performer: &mut P,
        input: &[u8],
        byte: u8,
    ) -> usize {
        if byte == ESCAPE {
            return self.read_escape_in_text::<P, G, false>(reader, performer, input, 0);
        }
        if is_lead(byte) {
            self.state = State::Text(OpenCharacter::One(byte));
        } else {
            reader.report_lone_byte(performer, byte);
        }
        1
    }

    /// Reads the one byte of a call after those that began a character.
    #[inline(never)]
    fn read_continuing_byte<P: CountedPerform<G> + ?Sized, G: Granularity>(
        &mut self,
        reader: Reader,
        performer: &mut P,
        input: &[u8],
        opened: OpenCharacter,
    ) -> usize {
        let byte = reader.byte_at(input, 0);
        match opened.extend(byte) {
            Extension::Truncated(more) => {
                self.state = State::Text(more);
                1
            }
            Extension::WellFormed(c) => {
                self.state = State::Text(OpenCharacter::Empty);
                reader.report_character(performer, c);
                1
            }
            Extension::Malformed => {
                self.state = State::Text(OpenCharacter::Empty);
                self.read_breaking_byte(reader, performer, input)
            }
        }
    }

    /// Prints U+FFFD for the bytes before, and reads the one byte of a call, which broke them. Not
    /// inlined, because whatever goes on after a call saves registers.
    #[inline(never)]
    fn read_breaking_byte<P: CountedPerform<G> + ?Sized, G: Granularity>(
        &mut self,
        reader: Reader,
        performer: &mut P,
        input: &[u8],
    ) -> usize {
        performer.print_char(reader, char::REPLACEMENT_CHARACTER);
        self.read_single_byte_of_text(reader, performer, input)
    }

    /// Reads a byte of the head of a control sequence: of its parameters, like most, or another.
    #[inline(never)]
    fn read_parameter_byte<P: CountedPerform<G> + ?Sized, G: Granularity>(
        &mut self,
        reader: Reader,
        performer: &mut P,
        input: &[u8],
        reached: HeadProgress,
    ) -> usize {
        if reached.may_have_parameters() {
            let byte = reader.byte_at(input, 0);
            if is_parameter_byte(byte) {
                self.collected.collect_parameter_byte(byte);
                self.state = State::ControlSequence(HeadProgress::Parameters);
                return 1;
            }
        }
        self.read_rest_of_head::<P, G, false>(reader, performer, input, 0, reached)
    }

    /// Reads a byte of the data of a device control string, or the byte that ends it.
    #[inline(always)]
    fn read_data_byte<P: CountedPerform<G> + ?Sized, G: Granularity>(
        &mut self,
        reader: Reader,
        performer: &mut P,
        input: &[u8],
    ) -> usize {
        let byte = reader.byte_at(input, 0);
        if is_device_data(byte) {
            performer.put_byte(reader, byte);
            return 1;
        }
        self.end_data_or_drop_byte::<P, G, false>(reader, performer, input, 0, byte)
    }

    /// Reads a byte outside text and control sequences, or none if memory is refused for it.
    #[inline(never)]
    fn read_single_byte_of_sequence<P: CountedPerform<G> + ?Sized, G: Granularity>(
        &mut self,
        reader: Reader,
        performer: &mut P,
        input: &[u8],
    ) -> Result<usize, Refused> {
        // `read_by_state` would read control sequences and data by functions with loops.
        Ok(match self.state {
            // Never: `drive_single_byte` reads text. A panic would stay in the program.
            State::Text(_) => 0,
            State::Escape => self.read_after_escape::<P, G, false>(reader, performer, input, 0),
            State::EscapeIntermediate => {
                self.read_intermediates::<P, G, false>(reader, performer, input, 0)
            }
            State::ControlSequence(reached) => {
                self.read_rest_of_head::<P, G, false>(reader, performer, input, 0, reached)
            }
            State::DeviceControl(reached) => {
                self.read_device_control::<P, G, false>(reader, performer, input, 0, reached)
            }
            State::DeviceData => self.read_data_byte(reader, performer, input),
            State::SystemCommand => {
                self.read_system_command::<P, G, false>(reader, performer, input, 0)?
            }
            State::IgnoredString => {
                self.read_ignored_string::<P, G, false>(reader, performer, input, 0)
            }
        })
    }
}
