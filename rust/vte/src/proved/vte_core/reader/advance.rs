// Written by tools/erase from crates/vte_core/src/reader/advance.rt: edit that one.
//! The calls that read bytes into a [`Parser`].

use crate::proved::vte_core::parser::Parser;
use crate::proved::vte_core::perform::{Perform, PerformText};
use crate::proved::vte_core::reader::{take_run, ByCharacter, InRuns, Run};

impl<const OSC_RAW_BUF_SIZE: usize> Parser<OSC_RAW_BUF_SIZE> {
    /// Reads the next bytes of the stream, and reports the events that they add to it.
    ///
    /// However calls split the stream, the events are the same. A character or sequence that is
    /// open at the end waits for more bytes.
    pub fn advance<P: Perform + ?Sized>(&mut self, performer: &mut P, bytes: &[u8]) {
        self.drive::<P, ByCharacter, false>(performer, bytes);
    }

    /// Reads the next bytes of the stream as [`advance`](Self::advance) does, and passes characters
    /// to print in [runs](crate::PerformText), and the data of device control strings in
    /// [slices](crate::PerformText::put_slice).
    pub fn advance_text<P: PerformText + ?Sized>(&mut self, performer: &mut P, bytes: &[u8]) {
        self.drive::<P, InRuns, false>(performer, bytes);
    }

    /// Reads bytes until the performer is terminated, and returns how many were read.
    ///
    /// A character that an earlier call began is finished first. Then the performer is asked, and
    /// again after each character, malformed sequence or byte that was reported. While nothing is
    /// reported, many bytes may be read between two questions. An open character at the end
    /// of the bytes counts as read.
    #[must_use = "the bytes after the stop are still to be read"]
    pub fn advance_until_terminated<P: Perform + ?Sized>(
        &mut self,
        performer: &mut P,
        bytes: &[u8],
    ) -> usize {
        self.drive::<P, ByCharacter, true>(performer, bytes)
    }

    /// Reads bytes as [`advance_until_terminated`](Self::advance_until_terminated) does, and passes
    /// characters to print in [runs](crate::PerformText). No character of a run may terminate the
    /// performer, which isn't asked inside a run.
    #[must_use = "the bytes after the stop are still to be read"]
    #[cfg(any(feature = "__own", feature = "ansi"))]
    pub(crate) fn advance_text_until_terminated<P: PerformText + ?Sized>(
        &mut self,
        performer: &mut P,
        bytes: &[u8],
    ) -> usize {
        self.drive::<P, InRuns, true>(performer, bytes)
    }

    /// Reads bytes up to and including a run of text, or of the data of a device control string.
    /// Returns the run instead of reporting it.
    ///
    /// Most text comes in the returned runs. A character that was divided between two calls, and
    /// U+FFFD for malformed bytes, come by [`print`](Perform::print), and a performer whose `print`
    /// does nothing loses them.
    ///
    /// A caller can take text from its own input in this way, with its position and without a copy.
    ///
    /// A run begins at a whole character that is printed as it is, if nothing is open before it, or
    /// at a data byte that is put. It ends before the first control, malformed sequence, open
    /// character or byte that isn't put. What an earlier call began is reported. Without a run,
    /// the call ends with the bytes, or when the performer is terminated. It is asked as by
    /// [`advance_until_terminated`](Self::advance_until_terminated).
    #[must_use = "the bytes after the run are still to be read"]
    #[allow(unsafe_code)]
    pub fn advance_to_run<'a, P: Perform + ?Sized>(
        &mut self,
        performer: &mut P,
        bytes: &'a [u8],
    ) -> Run<'a> {
        let range = self.drive_to_run(performer, bytes);
        // SAFETY: `drive_to_run` found the range in these bytes.
        unsafe { take_run(bytes, range) }
    }
}
