// Written by tools/erase from crates/vte_core/src/parser/ignored_string.rt: edit that one.
//! Ignored strings: SOS, PM, APC, and device control strings with an ill-shaped head.

use crate::proved::vte_core::buffer::Buffer;
use crate::proved::vte_core::parser::Machine;
use crate::proved::vte_core::reader::{CountedPerform, Granularity, Reader};

impl<B: Buffer> Machine<B> {
    /// Reads a string that means nothing, and the byte that ends it.
    pub(crate) fn read_ignored_string<
        P: CountedPerform<G> + ?Sized,
        G: Granularity,
        const MAY_STOP: bool,
    >(
        &mut self,
        reader: Reader,
        performer: &mut P,
        input: &[u8],
        from: usize,
    ) -> usize {
        let end = reader.find_ignored_string_end(input, from);
        match reader.get_byte(input, end) {
            Some(byte) => {
                self.read_ending_byte::<P, G, MAY_STOP>(reader, performer, input, end, byte)
            }
            None => end,
        }
    }
}
