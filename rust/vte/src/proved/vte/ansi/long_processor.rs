// Written by tools/erase from crates/vte/src/ansi/long_processor.rt: edit that one.
//! The processor without a limit.

use crate::proved::vte::ansi::calls::growing_text::GrowingText;
use crate::proved::vte::ansi::updates::engine::Engine;
use crate::proved::vte_core::{ByCharacter, InRuns, LongParser, Refused};
use crate::proved::vte_handler::{Handler, HandlerText, Timeout};

/// A [`Processor`](crate::ansi::Processor) that keeps commands, titles and links whatever their
/// length.
///
/// A call allocates before it parses each 65,536 bytes: for them and an open command, and for a
/// text that is joined from these. For bytes that are held back, it allocates all memory at once.
/// If memory is refused, the call stops there. Nothing is lost or done twice, and the rest can be
/// passed in again:
#[derive(Clone)]
pub struct LongProcessor<T: Timeout> {
    engine: Engine<LongParser, GrowingText, T>,
}

impl<T: Timeout> LongProcessor<T> {
    /// Creates a processor that has read nothing, and allocates the 2,097,152 bytes for updates
    /// that are held back.
    ///
    /// Returns the timeout if memory runs out.
    pub fn new(timeout: T) -> Result<Self, T> {
        let parser = LongParser::new();
        let text = GrowingText::new();
        let engine = Engine::new(parser, text, timeout)?;
        Ok(LongProcessor { engine })
    }
}

impl<T: Timeout> LongProcessor<T> {
    /// Returns the timeout.
    pub fn sync_timeout(&self) -> &T {
        &self.engine.state.timeout
    }

    /// Returns the number of bytes that are held back, at most 2,097,150.
    pub fn sync_bytes_count(&self) -> usize {
        self.engine.hold.len()
    }

    /// Returns whether the open operating system command has lost data bytes, or the last one if
    /// none is open. It loses those after the 16th piece. Bytes that are held back don't count.
    pub fn command_lost_data(&self) -> bool {
        self.engine.parser.command_lost_data()
    }

    /// Reserves memory for the bytes that are held back and for `more` others. Returns whether it
    /// succeeded. Calls with no more bytes than that are then never refused memory.
    #[must_use = "the memory may be refused"]
    pub fn reserve(&mut self, more: usize) -> bool {
        self.engine.reserve(more)
    }

    /// Frees the memory that an open operating system command doesn't need, unless bytes are
    /// held back. The 2,097,152 bytes for updates stay.
    pub fn shrink(&mut self) {
        if self.engine.hold.len() == 0 {
            self.engine.parser.shrink();
            self.engine.state.text.free();
        }
    }

    /// Stops an update: parses the bytes that are held back, calls the handler to tell it that the
    /// update has ended, and clears the timeout. This call is made even if no update is open.
    ///
    /// It needs no more memory: the calls that held the bytes back reserved it.
    pub fn stop_sync<H: Handler + ?Sized>(&mut self, handler: &mut H) {
        self.engine.stop::<H, ByCharacter>(handler);
    }

    /// Stops an update as [`stop_sync`](Self::stop_sync) does. The handler receives text in runs.
    pub fn stop_sync_text<H: HandlerText + ?Sized>(&mut self, handler: &mut H) {
        self.engine.stop::<H, InRuns>(handler);
    }

    /// Reads bytes, and parses them or holds them back: all of them, or as many as there is memory
    /// for.
    ///
    /// If the timeout is never pending and no memory is refused, all bytes are parsed: the handler
    /// of a new processor receives the calls of the whole stream, however it is split.
    ///
    /// # Errors
    ///
    /// Fails if memory is refused. [`Refused`] says how many of the bytes were read, which is fewer
    /// than all. Pass in the others next, `&bytes[refused.read..]`.
    pub fn advance<H: Handler + ?Sized>(
        &mut self,
        handler: &mut H,
        bytes: &[u8],
    ) -> Result<(), Refused> {
        self.engine.advance::<H, ByCharacter>(handler, bytes)
    }

    /// Reads bytes as [`advance`](Self::advance) does. The handler receives text in runs.
    ///
    /// # Errors
    ///
    /// Fails as [`advance`](Self::advance) does.
    pub fn advance_text<H: HandlerText + ?Sized>(
        &mut self,
        handler: &mut H,
        bytes: &[u8],
    ) -> Result<(), Refused> {
        self.engine.advance::<H, InRuns>(handler, bytes)
    }
}
