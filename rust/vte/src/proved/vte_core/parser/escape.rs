// Written by tools/erase from crates/vte_core/src/parser/escape.rt: edit that one.
//! Escape sequences, and what ESC begins.

use crate::proved::vte_core::buffer::Buffer;
use crate::proved::vte_core::class::{
    begins_ignored_string, dispatches_escape, ends_sequence, is_final, is_head_byte,
    is_intermediate, is_plain_control, ESCAPE,
};
use crate::proved::vte_core::head::HeadProgress;
use crate::proved::vte_core::parser::{Machine, OpenCharacter, State};
use crate::proved::vte_core::reader::{CountedPerform, Granularity, Reader};

impl<B: Buffer> Machine<B> {
    /// Begins an escape sequence at an ESC in a text, and reads the bytes after the ESC.
    #[inline(never)]
    pub(crate) fn read_escape_in_text<
        P: CountedPerform<G> + ?Sized,
        G: Granularity,
        const MAY_STOP: bool,
    >(
        &mut self,
        reader: Reader,
        performer: &mut P,
        input: &[u8],
        from: usize,
    ) -> usize {
        self.collected.clear_intermediates();
        let next = from + 1;
        if next < input.len() && reader.byte_at(input, next) == b'[' {
            self.collected.clear_numbers();
            self.state = State::ControlSequence(HeadProgress::Entry);
            return self.read_short_head::<P, G, MAY_STOP>(reader, performer, input, next + 1);
        }
        self.state = State::Escape;
        self.read_after_escape::<P, G, MAY_STOP>(reader, performer, input, next)
    }

    /// Reads bytes after ESC, up to the one that says what begins. After `[` it reads the control
    /// sequence too.
    #[inline(never)]
    pub(crate) fn read_after_escape<
        P: CountedPerform<G> + ?Sized,
        G: Granularity,
        const MAY_STOP: bool,
    >(
        &mut self,
        reader: Reader,
        performer: &mut P,
        input: &[u8],
        from: usize,
    ) -> usize {
        for position in from..input.len() {
            let byte = reader.byte_at(input, position);
            // Added before the branches, so that the loop over ESC is shorter.
            let next = position + 1;
            if byte == b'[' {
                self.collected.clear_numbers();
                self.state = State::ControlSequence(HeadProgress::Entry);
                // Not `read_numbers_and_rest`, which may look at a byte twice: 3 looks per byte are
                // left.
                return self.read_rest_of_head::<P, G, MAY_STOP>(
                    reader,
                    performer,
                    input,
                    next,
                    HeadProgress::Entry,
                );
            }
            // Another ESC changes nothing: nothing was collected since the one before.
            if byte != ESCAPE {
                self.read_byte_after_escape(reader, performer, byte);
                return next;
            }
        }
        input.len()
    }

    /// Reads a byte after ESC, other than `[`.
    fn read_byte_after_escape<P: CountedPerform<G> + ?Sized, G: Granularity>(
        &mut self,
        reader: Reader,
        performer: &mut P,
        byte: u8,
    ) {
        if is_final(byte) {
            self.begin_or_dispatch(reader, performer, byte);
        } else if is_intermediate(byte) {
            self.collected.collect_intermediate(byte);
            self.state = State::EscapeIntermediate;
        } else if is_head_byte(byte) {
            self.dispatch_escape(reader, performer, byte);
        } else if ends_sequence(byte) {
            self.end_sequence(reader, performer, byte);
        } else if is_plain_control(byte) {
            performer.execute_control(reader, byte);
        }
        // DEL and 80..FF are dropped.
    }

    /// Begins the string that a byte after ESC introduces, or dispatches the escape sequence that
    /// the byte ends. It is one of 40..7E other than `[`.
    #[inline(never)]
    fn begin_or_dispatch<P: CountedPerform<G> + ?Sized, G: Granularity>(
        &mut self,
        reader: Reader,
        performer: &mut P,
        byte: u8,
    ) {
        if byte == b'P' {
            self.collected.clear_numbers();
            self.state = State::DeviceControl(HeadProgress::Entry);
        } else if byte == b']' {
            self.command.clear();
            self.state = State::SystemCommand;
        } else if begins_ignored_string(byte) {
            self.state = State::IgnoredString;
        } else {
            self.dispatch_escape(reader, performer, byte);
        }
    }

    /// Reads the intermediates of an escape sequence and its final byte.
    #[inline(never)]
    pub(crate) fn read_intermediates<
        P: CountedPerform<G> + ?Sized,
        G: Granularity,
        const MAY_STOP: bool,
    >(
        &mut self,
        reader: Reader,
        performer: &mut P,
        input: &[u8],
        from: usize,
    ) -> usize {
        for position in from..input.len() {
            let byte = reader.byte_at(input, position);
            if is_intermediate(byte) {
                self.collected.collect_intermediate(byte);
            } else if dispatches_escape(byte) {
                self.dispatch_escape(reader, performer, byte);
                return position + 1;
            } else if ends_sequence(byte) {
                self.end_sequence(reader, performer, byte);
                return position + 1;
            } else if is_plain_control(byte) {
                performer.execute_control(reader, byte);
                return position + 1;
            }
            // DEL and 80..FF are dropped.
        }
        input.len()
    }

    /// Dispatches an escape sequence at its final byte.
    fn dispatch_escape<P: CountedPerform<G> + ?Sized, G: Granularity>(
        &mut self,
        reader: Reader,
        performer: &mut P,
        final_byte: u8,
    ) {
        performer.esc_dispatch(reader, &self.collected, final_byte);
        self.state = State::Text(OpenCharacter::Empty);
    }
}
