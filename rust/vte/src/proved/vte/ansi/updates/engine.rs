// Written by tools/erase from crates/vte/src/ansi/updates/engine.rt: edit that one.
//! What a processor is, whatever its limit. It takes turns: each parses bytes of a call, or holds
//! them back.

use crate::proved::vte::ansi::calls::performer::ProcessorState;
use crate::proved::vte::ansi::calls::text_buffer::TextBuffer;
use crate::proved::vte::ansi::updates::hold::{SyncState, MAX_HELD};
use crate::proved::vte::ansi::updates::parsing::{
    parse_all, parse_until_begin, EventParser, ParseAs,
};
use crate::proved::vte::ansi::updates::UPDATE_TIMEOUT_MILLIS;
use crate::proved::vte_core::Refused;
use crate::proved::vte_handler::{Handler, Timeout};
use crate::proved::vte_types::{NamedPrivateMode, PrivateMode};
use core::time::Duration;

/// How many bytes a parsing turn allocates for at once: few compared with the memory of a hold, but
/// enough that a call takes few slices.
const SLICE_SIZE: usize = 65_536;

/// The parser, the hold and the state of a processor, whatever its limit. `P`: parser, `B`: buffer
/// for joined texts, `T`: timeout, `A`: allocator.
#[derive(Clone)]
pub(crate) struct Engine<P, B, T> {
    pub(crate) parser: P,
    pub(crate) hold: SyncState,
    pub(crate) state: ProcessorState<T, B>,
}

impl<P: EventParser, B: TextBuffer, T: Timeout> Engine<P, B, T> {
    /// Creates an engine of a parser that has read nothing, with memory for a hold. Returns the
    /// timeout if memory runs out.
    pub(crate) fn new(parser: P, text: B, timeout: T) -> Result<Self, T> {
        match SyncState::new() {
            Ok(hold) => Ok(Engine {
                parser,
                hold,
                state: ProcessorState {
                    last_printed: None,
                    text,
                    timeout,
                },
            }),
            Err(_) => Err(timeout),
        }
    }

    /// Reads bytes, and parses them or holds them back: all of them, or as many as there is memory
    /// for. `G` says how the handler receives text.
    #[inline]
    pub(crate) fn advance<H: Handler + ?Sized, G: ParseAs<H, T, P>>(
        &mut self,
        handler: &mut H,
        bytes: &[u8],
    ) -> Result<(), Refused> {
        let mut read = 0;
        // Each turn reads at least one byte.
        for _turn in 0..bytes.len() {
            match self.take_turn::<H, G>(handler, &bytes[read..]) {
                Ok(count) => read += count,
                Err(refused) => {
                    let read = read + refused.read;
                    return Err(Refused { read });
                }
            }
            if read == bytes.len() {
                return Ok(());
            }
        }
        Ok(())
    }

    /// Stops the update, whatever is held: there is memory to parse it.
    // Stops are rare, so they are kept out of the loop over bytes of a turn.
    #[inline(never)]
    pub(crate) fn stop<H: Handler + ?Sized, G: ParseAs<H, T, P>>(&mut self, handler: &mut H) {
        self.hold.release_all();
        self.end_update::<H, G>(handler);
    }

    /// Parses the released bytes, after which nothing is held, and tells the handler that the
    /// update has ended.
    fn end_update<H: Handler + ?Sized, G: ParseAs<H, T, P>>(&mut self, handler: &mut H) {
        self.parse_released::<H, G>(handler);
        handler.unset_private_mode(PrivateMode::Named(NamedPrivateMode::SyncUpdate));
        self.state.timeout.clear_timeout();
    }

    /// Parses the released bytes, if there are any.
    fn parse_released<H: Handler + ?Sized, G: ParseAs<H, T, P>>(&mut self, handler: &mut H) {
        let released = self.hold.released();
        if released.is_empty() {
            return;
        }
        parse_all::<H, B, T, P, G>(&mut self.parser, &mut self.state, handler, released);
    }

    /// Takes one turn, and returns how many bytes it read, or how many until memory was refused. It
    /// asks the timeout once. While an update is pending, the bytes are held, or the update is
    /// stopped if there is no room for them.
    #[inline]
    fn take_turn<H: Handler + ?Sized, G: ParseAs<H, T, P>>(
        &mut self,
        handler: &mut H,
        bytes: &[u8],
    ) -> Result<usize, Refused> {
        let pending = self.state.timeout.pending_timeout();
        if pending && self.has_room(bytes.len()) {
            if !self.reserve(bytes.len()) {
                return Err(Refused { read: 0 });
            }
            self.hold_bytes::<H, G>(handler, bytes);
            return Ok(bytes.len());
        }
        // There is no room, or the update has expired while bytes of it are held.
        if pending || self.hold.len() > 0 {
            self.stop::<H, G>(handler);
        }
        self.take_parsing_turn::<H, G>(handler, bytes)
    }

    /// Returns whether there is room to hold this many more bytes.
    fn has_room(&self, count: usize) -> bool {
        count <= MAX_HELD && self.hold.len() <= MAX_HELD - count
    }

    /// Parses bytes up to the one that begins an update, a slice at a time, and returns how many.
    /// Memory is allocated before each slice.
    fn take_parsing_turn<H: Handler + ?Sized, G: ParseAs<H, T, P>>(
        &mut self,
        handler: &mut H,
        bytes: &[u8],
    ) -> Result<usize, Refused> {
        let mut read = 0;
        // Each round parses at least one byte, so `Ok` after the loop is for no bytes.
        for _slice in 0..bytes.len() {
            let count = (bytes.len() - read).min(SLICE_SIZE);
            if !self.reserve(count) {
                return Err(Refused { read });
            }
            let slice = &bytes[read..read + count];
            let (parsed, begins) = parse_until_begin::<H, B, T, P, G>(
                &mut self.parser,
                &mut self.state,
                handler,
                slice,
            );
            read += parsed;
            if begins || read == bytes.len() {
                return Ok(read);
            }
        }
        Ok(read)
    }

    /// Reserves memory for the held bytes and for `more` others. Returns whether it succeeded.
    pub(crate) fn reserve(&mut self, more: usize) -> bool {
        self.parser
            .reserve(&mut self.state.text, self.hold.len(), more)
    }

    /// Holds all bytes. If an update ends among them, parses the bytes that this releases.
    #[inline]
    fn hold_bytes<H: Handler + ?Sized, G: ParseAs<H, T, P>>(
        &mut self,
        handler: &mut H,
        bytes: &[u8],
    ) {
        let begin_count = self.hold.add(bytes);
        set_timeout_times(&mut self.state.timeout, begin_count);
        // Nothing stays held only if an update ends and no other begins after it.
        if self.hold.len() == 0 {
            self.end_update::<H, G>(handler);
        } else {
            self.parse_released::<H, G>(handler);
        }
    }
}

/// Sets the timeout this many times.
fn set_timeout_times<T: Timeout>(timeout: &mut T, count: usize) {
    for _time in 0..count {
        timeout.set_timeout(Duration::from_millis(UPDATE_TIMEOUT_MILLIS));
    }
}
