// Written by tools/erase from crates/vte_core/src/parser/system_command.rt: edit that one.
//! Operating system commands.

use crate::proved::vte_core::buffer::Buffer;
use crate::proved::vte_core::class::ends_sequence;
use crate::proved::vte_core::parser::{Machine, OpenCharacter, Refused, State};
use crate::proved::vte_core::reader::{CountedPerform, Granularity, Reader};

/// BEL: ends an operating system command.
const BELL: u8 = 0x07;

impl<B: Buffer> Machine<B> {
    /// Reads data bytes of an operating system command, and the byte after them. It allocates
    /// for the data, or else reads nothing.
    #[inline(never)]
    pub(crate) fn read_system_command<
        P: CountedPerform<G> + ?Sized,
        G: Granularity,
        const MAY_STOP: bool,
    >(
        &mut self,
        reader: Reader,
        performer: &mut P,
        input: &[u8],
        from: usize,
    ) -> Result<usize, Refused> {
        let end = reader.find_command_data_end(input, from);
        if !self.command.reserve_if_kept(end - from) {
            return Err(Refused { read: from });
        }
        self.command.push_data(reader, input, from, end);
        let byte = match reader.get_byte(input, end) {
            Some(byte) => byte,
            None => return Ok(end),
        };
        if ends_sequence(byte) {
            return Ok(self.read_ending_byte::<P, G, MAY_STOP>(reader, performer, input, end, byte));
        }
        if byte == b';' {
            self.command.end_piece();
        } else if byte == BELL {
            self.command.dispatch(reader, performer, true);
            self.state = State::Text(OpenCharacter::Empty);
        }
        Ok(end + 1)
    }
}
