// Written by tools/erase from crates/vte_core/src/reader/counted_perform.rt: edit that one.
//! Performers, as the functions of a parser see them.

use crate::proved::vte_core::head::CollectedHead;
use crate::proved::vte_core::perform::Perform;
use crate::proved::vte_core::reader::granularity::{Granularity, ReceiveAs};
use crate::proved::vte_core::reader::Reader;

/// A performer, as the functions of a parser see it.
pub(crate) trait CountedPerform<G: Granularity> {
    /// Returns whether HT, LF and CR come as text.
    fn keeps_layout(&self) -> bool;

    /// Reports a character to print.
    fn print_char(&mut self, reader: Reader, c: char);

    /// Reports a text to print, and counts its bytes, which are no fewer than its characters.
    fn print_text(&mut self, reader: Reader, text: &str);

    /// Reports a control function of one byte.
    fn execute_control(&mut self, reader: Reader, byte: u8);

    /// Reports that a device control string begins, with the final byte of its head.
    fn hook(&mut self, reader: Reader, collected: &CollectedHead, ignore: bool, final_byte: u8);

    /// Reports a data byte of the device control string.
    fn put_byte(&mut self, reader: Reader, byte: u8);

    /// Reports data bytes of the device control string, and counts each.
    fn put_slice(&mut self, reader: Reader, bytes: &[u8]);

    /// Reports that the device control string ends.
    fn unhook(&mut self, reader: Reader);

    /// Reports an operating system command.
    fn osc_dispatch(&mut self, reader: Reader, pieces: &[&[u8]], bell_terminated: bool);

    /// Reports a control sequence with this final byte.
    fn csi_dispatch(
        &mut self,
        reader: Reader,
        collected: &CollectedHead,
        ignore: bool,
        final_byte: u8,
    );

    /// Reports an escape sequence with this final byte.
    fn esc_dispatch(&mut self, reader: Reader, collected: &CollectedHead, final_byte: u8);

    /// Returns whether a call that may stop ends here. The question takes no look.
    fn terminated(&self) -> bool;
}

impl<P: ReceiveAs<G> + ?Sized, G: Granularity> CountedPerform<G> for P {
    #[inline(always)]
    fn keeps_layout(&self) -> bool {
        ReceiveAs::<G>::keeps_layout(self)
    }

    #[inline(always)]
    fn print_char(&mut self, reader: Reader, c: char) {
        reader.count_looks(1);
        ReceiveAs::<G>::print_char(self, c);
    }

    #[inline(always)]
    fn print_text(&mut self, reader: Reader, text: &str) {
        reader.count_looks(text.len());
        ReceiveAs::<G>::print_text(self, text);
    }

    #[inline(always)]
    fn execute_control(&mut self, reader: Reader, byte: u8) {
        reader.count_looks(1);
        ReceiveAs::<G>::execute_control(self, byte);
    }

    #[inline(always)]
    fn hook(&mut self, reader: Reader, collected: &CollectedHead, ignore: bool, final_byte: u8) {
        reader.count_looks(1);
        let (intermediates, action) = (collected.intermediates.as_slice(), char::from(final_byte));
        Perform::hook(self, &collected.params, intermediates, ignore, action);
    }

    #[inline(always)]
    fn put_byte(&mut self, reader: Reader, byte: u8) {
        reader.count_looks(1);
        ReceiveAs::<G>::put_byte(self, byte);
    }

    #[inline(always)]
    fn put_slice(&mut self, reader: Reader, bytes: &[u8]) {
        reader.count_looks(bytes.len());
        ReceiveAs::<G>::put_slice(self, bytes);
    }

    #[inline(always)]
    fn unhook(&mut self, reader: Reader) {
        reader.count_looks(1);
        Perform::unhook(self);
    }

    #[inline(always)]
    fn osc_dispatch(&mut self, reader: Reader, pieces: &[&[u8]], bell_terminated: bool) {
        reader.count_looks(1);
        Perform::osc_dispatch(self, pieces, bell_terminated);
    }

    #[inline(always)]
    fn csi_dispatch(
        &mut self,
        reader: Reader,
        collected: &CollectedHead,
        ignore: bool,
        final_byte: u8,
    ) {
        reader.count_looks(1);
        let (intermediates, action) = (collected.intermediates.as_slice(), char::from(final_byte));
        Perform::csi_dispatch(self, &collected.params, intermediates, ignore, action);
    }

    #[inline(always)]
    fn esc_dispatch(&mut self, reader: Reader, collected: &CollectedHead, final_byte: u8) {
        reader.count_looks(1);
        let intermediates = collected.intermediates.as_slice();
        Perform::esc_dispatch(
            self,
            intermediates,
            collected.too_many_intermediates,
            final_byte,
        );
    }

    #[inline(always)]
    fn terminated(&self) -> bool {
        Perform::terminated(self)
    }
}
