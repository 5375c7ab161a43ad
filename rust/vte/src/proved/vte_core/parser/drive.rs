// Written by tools/erase from crates/vte_core/src/parser/drive.rt: edit that one.
//! The loop over the bytes of a call.

use crate::proved::vte_core::buffer::Buffer;
use crate::proved::vte_core::parser::{Machine, Refused, State};
use crate::proved::vte_core::reader::{CountedPerform, Granularity, Reader};

impl<B: Buffer> Machine<B> {
    /// Reads the bytes of a call as `drive_loop` does, and one byte that can't stop it without a
    /// loop.
    #[inline(always)]
    pub(crate) fn drive<P: CountedPerform<G> + ?Sized, G: Granularity, const MAY_STOP: bool>(
        &mut self,
        reader: Reader,
        performer: &mut P,
        input: &[u8],
    ) -> Result<usize, Refused> {
        if !MAY_STOP && input.len() == 1 {
            return self.drive_single_byte(reader, performer, input);
        }
        self.drive_loop::<P, G, MAY_STOP>(reader, performer, input)
    }

    /// Reads the bytes of a call, as many as there is memory for, and returns how many: all of
    /// them, or up to a stop if `MAY_STOP`.
    // Inlined into a program's own function, its loops would keep their variables on the stack: 1.1
    // to 1.3 times the instructions.
    #[inline(never)]
    fn drive_loop<P: CountedPerform<G> + ?Sized, G: Granularity, const MAY_STOP: bool>(
        &mut self,
        reader: Reader,
        performer: &mut P,
        input: &[u8],
    ) -> Result<usize, Refused> {
        let mut position = self.continue_open_character::<P, G, MAY_STOP>(reader, performer, input);
        while position < input.len() {
            if MAY_STOP && performer.terminated() {
                return Ok(position);
            }
            position = self.read_by_state::<P, G, MAY_STOP>(reader, performer, input, position)?;
        }
        Ok(position)
    }

    /// Continues the character that an earlier call began, if one is open, as far as the bytes of
    /// this call go.
    pub(crate) fn continue_open_character<
        P: CountedPerform<G> + ?Sized,
        G: Granularity,
        const MAY_STOP: bool,
    >(
        &mut self,
        reader: Reader,
        performer: &mut P,
        input: &[u8],
    ) -> usize {
        match self.state {
            State::Text(opened) => {
                if opened.is_empty() {
                    return 0;
                }
                self.continue_character::<P, G, MAY_STOP>(reader, performer, input, 0, opened)
            }
            _ => 0,
        }
    }

    /// Reads at least one byte, or none if memory is refused for it. The caller has asked the
    /// performer before that byte.
    #[inline]
    pub(crate) fn read_by_state<
        P: CountedPerform<G> + ?Sized,
        G: Granularity,
        const MAY_STOP: bool,
    >(
        &mut self,
        reader: Reader,
        performer: &mut P,
        input: &[u8],
        from: usize,
    ) -> Result<usize, Refused> {
        // A comparison, because the match jumps by a table, which is hard to predict.
        if let State::Text(_) = self.state {
            return Ok(self.read_text::<P, G, MAY_STOP>(reader, performer, input, from));
        }
        Ok(match self.state {
            // Never: this was tested above. A panic could stay in the program.
            State::Text(_) => from,
            State::Escape => {
                self.read_after_escape::<P, G, MAY_STOP>(reader, performer, input, from)
            }
            State::EscapeIntermediate => {
                self.read_intermediates::<P, G, MAY_STOP>(reader, performer, input, from)
            }
            State::ControlSequence(reached) => self
                .read_numbers_and_rest::<P, G, MAY_STOP>(reader, performer, input, from, reached),
            State::DeviceControl(reached) => {
                self.read_device_control::<P, G, MAY_STOP>(reader, performer, input, from, reached)
            }
            State::DeviceData => {
                self.read_device_data::<P, G, MAY_STOP>(reader, performer, input, from)
            }
            State::SystemCommand => {
                self.read_system_command::<P, G, MAY_STOP>(reader, performer, input, from)?
            }
            State::IgnoredString => {
                self.read_ignored_string::<P, G, MAY_STOP>(reader, performer, input, from)
            }
        })
    }
}
