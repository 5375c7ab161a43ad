// Written by tools/erase from crates/vte_core/src/parser/character.rt: edit that one.
//! The bytes of a character after the first.
//!
//! `continue_character` reads any of them, byte by byte. For a character that begins in this call,
//! `complete_three` and `complete_four` read the same without a loop, and test only once how many
//! bytes it has.

use crate::proved::vte_core::buffer::Buffer;
use crate::proved::vte_core::parser::{Machine, State};
use crate::proved::vte_core::reader::{text_between, CountedPerform, Granularity, Reader};
use crate::proved::vte_core::utf8::{
    character_of_four, character_of_three, character_of_two, is_continuation, may_begin_four,
    may_begin_three, Extension, OpenCharacter,
};

impl<B: Buffer> Machine<B> {
    /// Reads the character or malformed sequence that begins with a lead byte. A byte that breaks
    /// it is left unread, and U+FFFD is printed for those before it. If text comes in runs, a
    /// character of four bytes begins a run.
    #[inline(always)]
    pub(crate) fn read_character<
        P: CountedPerform<G> + ?Sized,
        G: Granularity,
        const MAY_STOP: bool,
    >(
        &mut self,
        reader: Reader,
        performer: &mut P,
        input: &[u8],
        from: usize,
        first: u8,
    ) -> usize {
        let next = from + 1;
        if next >= input.len() {
            self.state = State::Text(OpenCharacter::One(first));
            return next;
        }
        let second = reader.byte_at(input, next);
        if !is_continuation(second) {
            performer.print_char(reader, char::REPLACEMENT_CHARACTER);
            return next;
        }
        if first < 0xe0 {
            reader.report_character(performer, character_of_two(first, second));
            return next + 1;
        }
        if first < 0xf0 {
            self.complete_three::<P, G, MAY_STOP>(reader, performer, input, from, first, second)
        } else {
            self.complete_four::<P, G, MAY_STOP>(reader, performer, input, from, first, second)
        }
    }

    /// Reads the character of three bytes that begins at `from`.
    #[inline(always)]
    fn complete_three<P: CountedPerform<G> + ?Sized, G: Granularity, const MAY_STOP: bool>(
        &mut self,
        reader: Reader,
        performer: &mut P,
        input: &[u8],
        from: usize,
        first: u8,
        second: u8,
    ) -> usize {
        let next = from + 1;
        if !may_begin_three(first, second) {
            performer.print_char(reader, char::REPLACEMENT_CHARACTER);
            return next;
        }
        if next + 1 >= input.len() {
            // No byte is left for `continue_near_end`.
            self.state = State::Text(OpenCharacter::Two(first, second));
            return next + 1;
        }
        let third = reader.byte_at(input, next + 1);
        if !is_continuation(third) {
            performer.print_char(reader, char::REPLACEMENT_CHARACTER);
            return next + 1;
        }
        reader.report_character(performer, character_of_three(first, second, third));
        next + 2
    }

    /// Reads the character of four bytes that begins at `from`. If text comes in runs, it begins
    /// a run.
    #[inline(always)]
    #[allow(unsafe_code)]
    fn complete_four<P: CountedPerform<G> + ?Sized, G: Granularity, const MAY_STOP: bool>(
        &mut self,
        reader: Reader,
        performer: &mut P,
        input: &[u8],
        from: usize,
        first: u8,
        second: u8,
    ) -> usize {
        let next = from + 1;
        if !may_begin_four(first, second) {
            performer.print_char(reader, char::REPLACEMENT_CHARACTER);
            return next;
        }
        // One comparison, whether one byte is missing or two.
        if next + 2 >= input.len() {
            return self.continue_near_end::<P, G, MAY_STOP>(
                reader,
                performer,
                input,
                next + 1,
                OpenCharacter::Two(first, second),
            );
        }
        let third = reader.byte_at(input, next + 1);
        if !is_continuation(third) {
            performer.print_char(reader, char::REPLACEMENT_CHARACTER);
            return next + 1;
        }
        let fourth = reader.byte_at(input, next + 2);
        if !is_continuation(fourth) {
            performer.print_char(reader, char::REPLACEMENT_CHARACTER);
            return next + 2;
        }
        if G::IN_RUNS {
            let end = reader.find_run_end_after_non_ascii(performer, input, next + 3);
            // SAFETY: the character at `from` is whole, and the search passes whole
            // characters.
            performer.print_text(reader, unsafe { text_between(input, from, end) });
            return end;
        }
        reader.report_character(performer, character_of_four(first, second, third, fourth));
        next + 3
    }

    /// Continues a character that may not end in this call.
    // Inlined in cargo's builds, it would take registers from the loops of text: 1.09 times the
    // instructions on ASCII.
    #[inline(never)]
    fn continue_near_end<P: CountedPerform<G> + ?Sized, G: Granularity, const MAY_STOP: bool>(
        &mut self,
        reader: Reader,
        performer: &mut P,
        input: &[u8],
        from: usize,
        opened: OpenCharacter,
    ) -> usize {
        self.continue_character::<P, G, MAY_STOP>(reader, performer, input, from, opened)
    }

    /// Reads the bytes that continue an open character. A byte that breaks it is left unread,
    /// and U+FFFD is printed for those before it.
    #[inline(always)]
    pub(crate) fn continue_character<
        P: CountedPerform<G> + ?Sized,
        G: Granularity,
        const MAY_STOP: bool,
    >(
        &mut self,
        reader: Reader,
        performer: &mut P,
        input: &[u8],
        from: usize,
        opened: OpenCharacter,
    ) -> usize {
        let mut still_open = opened;
        for position in from..input.len() {
            match still_open.extend(reader.byte_at(input, position)) {
                Extension::Truncated(more) => still_open = more,
                Extension::WellFormed(c) => {
                    reader.report_character(performer, c);
                    self.state = State::Text(OpenCharacter::Empty);
                    return position + 1;
                }
                Extension::Malformed => {
                    performer.print_char(reader, char::REPLACEMENT_CHARACTER);
                    self.state = State::Text(OpenCharacter::Empty);
                    return position;
                }
            }
        }
        self.state = State::Text(still_open);
        input.len()
    }
}
