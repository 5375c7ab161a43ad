// Written by tools/erase from crates/vte/src/ansi/bounded_processor.rt: edit that one.
//! The processor with a limit of its own.

use crate::proved::vte::ansi::calls::growing_text::GrowingText;
use crate::proved::vte::ansi::updates::engine::Engine;
use crate::proved::vte::ansi::updates::parsing::EventParser;
use crate::proved::vte_core::{ByCharacter, InRuns, Parser};
use crate::proved::vte_handler::{Handler, HandlerText, Timeout};

/// A [`Processor`](crate::ansi::Processor) that keeps up to `N` data bytes of an operating system
/// command, and drops the rest.
#[derive(Clone)]
pub struct BoundedProcessor<T: Timeout, const N: usize> {
    engine: Engine<Parser<N>, GrowingText, T>,
}

impl<T: Timeout, const N: usize> BoundedProcessor<T, N> {
    /// Creates a processor that has read nothing, and allocates the 2,097,152 bytes for updates
    /// that are held back, and `N + 16` for texts that are joined. No later call allocates memory.
    ///
    /// Returns the timeout if memory runs out.
    pub fn new(timeout: T) -> Result<Self, T> {
        let mut parser = Parser::<N>::new_with_size();
        let mut text = GrowingText::new();
        if !parser.reserve(&mut text, 0, 0) {
            return Err(timeout);
        }
        let engine = Engine::new(parser, text, timeout)?;
        Ok(BoundedProcessor { engine })
    }
}

impl<T: Timeout, const N: usize> BoundedProcessor<T, N> {
    /// Returns the timeout.
    pub fn sync_timeout(&self) -> &T {
        &self.engine.state.timeout
    }

    /// Returns the number of bytes that are held back, at most 2,097,150.
    pub fn sync_bytes_count(&self) -> usize {
        self.engine.hold.len()
    }

    /// Returns whether the open operating system command has lost data bytes, or the last one if
    /// none is open. It loses those after the first `N`, and those after the 16th piece. Bytes that
    /// are held back don't count.
    pub fn command_lost_data(&self) -> bool {
        self.engine.parser.command_lost_data()
    }

    /// Stops an update: parses the bytes that are held back, calls the handler to tell it that the
    /// update has ended, and clears the timeout. This call is made even if no update is open.
    pub fn stop_sync<H: Handler + ?Sized>(&mut self, handler: &mut H) {
        self.engine.stop::<H, ByCharacter>(handler);
    }

    /// Stops an update as [`stop_sync`](Self::stop_sync) does. The handler receives text in runs.
    pub fn stop_sync_text<H: HandlerText + ?Sized>(&mut self, handler: &mut H) {
        self.engine.stop::<H, InRuns>(handler);
    }

    /// Reads bytes, and parses them or holds them back.
    ///
    /// If the timeout is never pending, all bytes are parsed: the handler of a new processor
    /// receives the calls of the whole stream, however it is split.
    pub fn advance<H: Handler + ?Sized>(&mut self, handler: &mut H, bytes: &[u8]) {
        // The memory is there, so all bytes are read.
        let _ = self.engine.advance::<H, ByCharacter>(handler, bytes);
    }

    /// Reads bytes as [`advance`](Self::advance) does. The handler receives text in runs.
    pub fn advance_text<H: HandlerText + ?Sized>(&mut self, handler: &mut H, bytes: &[u8]) {
        // The memory is there, so all bytes are read.
        let _ = self.engine.advance::<H, InRuns>(handler, bytes);
    }
}
