// Written by tools/erase from crates/vte_core/src/reader/advance_long.rt: edit that one.
//! The calls that read bytes into a [`LongParser`].

use crate::proved::vte_core::parser::{LongParser, Refused};
use crate::proved::vte_core::perform::{Perform, PerformText};
use crate::proved::vte_core::reader::{take_run, ByCharacter, InRuns, Run};

impl LongParser {
    /// Reads the next bytes of the stream, and reports the events that they add to it.
    ///
    /// # Errors
    ///
    /// Fails if memory is refused. [`Refused`] says how many bytes were read before, whose events
    /// were reported: free some memory, and pass in the others.
    pub fn advance<P: Perform + ?Sized>(
        &mut self,
        performer: &mut P,
        bytes: &[u8],
    ) -> Result<(), Refused> {
        self.drive::<P, ByCharacter, false>(performer, bytes)?;
        Ok(())
    }

    /// Reads the next bytes of the stream as [`advance`](Self::advance) does, and passes characters
    /// to print in [runs](crate::PerformText), and the data of device control strings in
    /// [slices](crate::PerformText::put_slice).
    pub fn advance_text<P: PerformText + ?Sized>(
        &mut self,
        performer: &mut P,
        bytes: &[u8],
    ) -> Result<(), Refused> {
        self.drive::<P, InRuns, false>(performer, bytes)?;
        Ok(())
    }

    /// Reads bytes until the performer is terminated or memory is refused, and returns how many
    /// were read.
    ///
    /// The performer is asked as by
    /// [`Parser::advance_until_terminated`](crate::Parser::advance_until_terminated), and before
    /// memory is allocated: a stop needs none.
    pub fn advance_until_terminated<P: Perform + ?Sized>(
        &mut self,
        performer: &mut P,
        bytes: &[u8],
    ) -> Result<usize, Refused> {
        self.drive::<P, ByCharacter, true>(performer, bytes)
    }

    /// Reads bytes as [`advance_until_terminated`](Self::advance_until_terminated) does, and passes
    /// characters to print in [runs](crate::PerformText). No character of a run may terminate the
    /// performer, which isn't asked inside a run.
    #[cfg(any(feature = "__own", feature = "ansi"))]
    pub(crate) fn advance_text_until_terminated<P: PerformText + ?Sized>(
        &mut self,
        performer: &mut P,
        bytes: &[u8],
    ) -> Result<usize, Refused> {
        self.drive::<P, InRuns, true>(performer, bytes)
    }

    /// Reads bytes up to and including a run of text, or of the data of a device control string.
    /// Returns the run instead of reporting it, as
    /// [`Parser::advance_to_run`](crate::Parser::advance_to_run) does.
    #[allow(unsafe_code)]
    pub fn advance_to_run<'a, P: Perform + ?Sized>(
        &mut self,
        performer: &mut P,
        bytes: &'a [u8],
    ) -> Result<Run<'a>, Refused> {
        let range = self.drive_to_run(performer, bytes)?;
        // SAFETY: `drive_to_run` found the range in these bytes.
        Ok(unsafe { take_run(bytes, range) })
    }
}
