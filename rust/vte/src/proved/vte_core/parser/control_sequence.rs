// Written by tools/erase from crates/vte_core/src/parser/control_sequence.rt: edit that one.
//! Control sequences.
//!
//! Their heads are read in two short ways and a general one: `read_short_head` takes a head of at
//! most one number, and calls nothing before the dispatch; `read_numbers_and_rest` takes numbers
//! with `;` between them, and `read_rest_of_head` whatever else a head has.

use crate::proved::vte_core::buffer::Buffer;
use crate::proved::vte_core::class::{ends_sequence, is_final, is_plain_control};
use crate::proved::vte_core::head::{HeadEnd, HeadProgress, Separators};
use crate::proved::vte_core::parser::{Machine, OpenCharacter, State};
use crate::proved::vte_core::reader::{CountedPerform, Granularity, Reader};

impl<B: Buffer> Machine<B> {
    /// Reads the first number of a control sequence, if any, and a final byte right after it. Most
    /// sequences have no more, and for them this calls nothing before the dispatch.
    #[inline(always)]
    pub(crate) fn read_short_head<
        P: CountedPerform<G> + ?Sized,
        G: Granularity,
        const MAY_STOP: bool,
    >(
        &mut self,
        reader: Reader,
        performer: &mut P,
        input: &[u8],
        from: usize,
    ) -> usize {
        let head = self.collected.read_numbers(
            reader,
            input,
            from,
            HeadProgress::Entry,
            Separators::Unread,
        );
        if let Some(byte) = head.next_byte {
            if is_final(byte) {
                return self.end_control_sequence(reader, performer, head, false, byte);
            }
            if byte == b';' {
                self.collected.end_number();
                self.state = State::ControlSequence(HeadProgress::Parameters);
                return self.read_more_numbers::<P, G, MAY_STOP>(
                    reader,
                    performer,
                    input,
                    head.position + 1,
                    HeadProgress::Parameters,
                );
            }
        }
        self.state = State::ControlSequence(head.progress);
        self.read_more_numbers::<P, G, MAY_STOP>(
            reader,
            performer,
            input,
            head.position,
            head.progress,
        )
    }

    /// Reads further numbers. Not inlined, because most sequences have at most one.
    #[inline(never)]
    fn read_more_numbers<P: CountedPerform<G> + ?Sized, G: Granularity, const MAY_STOP: bool>(
        &mut self,
        reader: Reader,
        performer: &mut P,
        input: &[u8],
        from: usize,
        reached: HeadProgress,
    ) -> usize {
        self.read_numbers_and_rest::<P, G, MAY_STOP>(reader, performer, input, from, reached)
    }

    /// Continues a control sequence, whose head was read as far as `reached`. There is a short path
    /// for numbers with `;` between them and a final byte after them. Most bytes take it if each
    /// call has one byte and may stop.
    #[inline(always)]
    pub(crate) fn read_numbers_and_rest<
        P: CountedPerform<G> + ?Sized,
        G: Granularity,
        const MAY_STOP: bool,
    >(
        &mut self,
        reader: Reader,
        performer: &mut P,
        input: &[u8],
        from: usize,
        reached: HeadProgress,
    ) -> usize {
        if !reached.may_have_parameters() || self.collected.joined {
            return self
                .read_rest_of_head::<P, G, MAY_STOP>(reader, performer, input, from, reached);
        }
        let head = self
            .collected
            .read_numbers(reader, input, from, reached, Separators::Read);
        if let Some(byte) = head.next_byte {
            if is_final(byte) {
                return self.end_control_sequence(reader, performer, head, false, byte);
            }
        }
        self.state = State::ControlSequence(head.progress);
        if head.next_byte.is_none() {
            return head.position;
        }
        self.read_rest_of_head::<P, G, MAY_STOP>(
            reader,
            performer,
            input,
            head.position,
            head.progress,
        )
    }

    /// Reads the rest of the head of a control sequence, and the byte after it.
    #[inline(never)]
    pub(crate) fn read_rest_of_head<
        P: CountedPerform<G> + ?Sized,
        G: Granularity,
        const MAY_STOP: bool,
    >(
        &mut self,
        reader: Reader,
        performer: &mut P,
        input: &[u8],
        from: usize,
        reached: HeadProgress,
    ) -> usize {
        let head = self.collected.read_head(reader, input, from, reached);
        self.state = State::ControlSequence(head.progress);
        if let Some(byte) = head.next_byte {
            if is_final(byte) {
                let joined = self.collected.joined;
                return self.end_control_sequence(reader, performer, head, joined, byte);
            }
            if ends_sequence(byte) {
                self.end_sequence(reader, performer, byte);
            } else if is_plain_control(byte) {
                performer.execute_control(reader, byte);
            }
            // DEL and 80..FF are dropped.
            return head.position + 1;
        }
        head.position
    }

    /// Ends a control sequence at its final byte, after its head: dispatches it, unless the head is
    /// ill-shaped. Returns the next position. `joined` is the value of the field: most callers know
    /// that it is false.
    #[inline(always)]
    fn end_control_sequence<P: CountedPerform<G> + ?Sized, G: Granularity>(
        &mut self,
        reader: Reader,
        performer: &mut P,
        head: HeadEnd,
        joined: bool,
        final_byte: u8,
    ) -> usize {
        if let HeadProgress::IllShaped = head.progress {
            self.state = State::Text(OpenCharacter::Empty);
            return head.position + 1;
        }
        let ignore = self.collected.end_head(joined);
        self.dispatch_control_sequence(reader, performer, ignore, final_byte, head.position)
    }

    /// Dispatches a control sequence at its final byte, and returns the next position, so that
    /// callers need not keep it.
    #[inline(never)]
    fn dispatch_control_sequence<P: CountedPerform<G> + ?Sized, G: Granularity>(
        &mut self,
        reader: Reader,
        performer: &mut P,
        ignore: bool,
        final_byte: u8,
        position: usize,
    ) -> usize {
        self.state = State::Text(OpenCharacter::Empty);
        performer.csi_dispatch(reader, &self.collected, ignore, final_byte);
        position + 1
    }
}
