// Written by tools/erase from crates/vte_core/src/parser/ending.rt: edit that one.
//! ESC, CAN and SUB, which end whatever is open, in every state.

use crate::proved::vte_core::buffer::Buffer;
use crate::proved::vte_core::class::ESCAPE;
use crate::proved::vte_core::parser::{Machine, OpenCharacter, State};
use crate::proved::vte_core::reader::{CountedPerform, Granularity, Reader};

impl<B: Buffer> Machine<B> {
    /// Closes what is open, and then begins an escape sequence, or executes CAN or SUB.
    #[inline(never)]
    pub(crate) fn end_sequence<P: CountedPerform<G> + ?Sized, G: Granularity>(
        &mut self,
        reader: Reader,
        performer: &mut P,
        byte: u8,
    ) {
        self.report_string_end(reader, performer);
        if byte == ESCAPE {
            self.collected.clear_intermediates();
            self.state = State::Escape;
            return;
        }
        performer.execute_control(reader, byte);
        self.state = State::Text(OpenCharacter::Empty);
    }

    /// Reads a byte that ends what is open, and after ESC also the bytes that follow it.
    pub(crate) fn read_ending_byte<
        P: CountedPerform<G> + ?Sized,
        G: Granularity,
        const MAY_STOP: bool,
    >(
        &mut self,
        reader: Reader,
        performer: &mut P,
        input: &[u8],
        from: usize,
        byte: u8,
    ) -> usize {
        self.end_sequence(reader, performer, byte);
        if byte != ESCAPE || (MAY_STOP && performer.terminated()) {
            return from + 1;
        }
        self.read_after_escape::<P, G, MAY_STOP>(reader, performer, input, from + 1)
    }

    /// Reports the end of a string: `unhook`, or the operating system command.
    fn report_string_end<P: CountedPerform<G> + ?Sized, G: Granularity>(
        &self,
        reader: Reader,
        performer: &mut P,
    ) {
        match self.state {
            State::DeviceData => performer.unhook(reader),
            State::SystemCommand => self.command.dispatch(reader, performer, false),
            _ => {}
        }
    }
}
