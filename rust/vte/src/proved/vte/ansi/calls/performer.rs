// Written by tools/erase from crates/vte/src/ansi/calls/performer.rt: edit that one.
//! The performer that calls a handler.

use crate::proved::vte::ansi::calls::command::perform_system_command;
use crate::proved::vte::ansi::calls::control_sequence::{
    change_mode, perform_control_sequence, ModeChange,
};
use crate::proved::vte::ansi::calls::escape::{perform_escape, perform_execute};
use crate::proved::vte::ansi::calls::input::InputAs;
use crate::proved::vte::ansi::calls::numbers::first_number;
use crate::proved::vte::ansi::calls::text_buffer::TextBuffer;
use crate::proved::vte::ansi::updates::UPDATE_TIMEOUT_MILLIS;
use crate::proved::vte_core::{InRuns, Params, Perform, PerformText};
use crate::proved::vte_handler::{Handler, HandlerText, Timeout};
use crate::proved::vte_types::NamedPrivateMode;
use core::marker::PhantomData;
use core::time::Duration;

/// What a processor keeps between events.
#[derive(Clone)]
pub(crate) struct ProcessorState<T, B> {
    /// The last character that was printed, which REP repeats.
    pub(crate) last_printed: Option<char>,
    /// The buffer in which texts are joined from pieces of a command.
    pub(crate) text: B,
    /// Whether an update is pending, and until when.
    pub(crate) timeout: T,
}

/// Calls a handler for each event, while it borrows the handler and the processor's state.
pub(crate) struct Performer<'s, 'h, H: Handler + ?Sized, T: Timeout, B: TextBuffer, G> {
    pub(crate) state: &'s mut ProcessorState<T, B>,
    pub(crate) handler: &'h mut H,
    /// Whether an update has begun, so that the next turn reads the bytes that follow.
    pub(crate) terminated: bool,
    pub(crate) granularity: PhantomData<G>,
}

impl<'s, 'h, H: InputAs<G> + ?Sized, T: Timeout, B: TextBuffer, G> Perform
    for Performer<'s, 'h, H, T, B, G>
{
    #[inline]
    fn print(&mut self, c: char) {
        self.handler.input_char(c);
        self.state.last_printed = Some(c);
    }

    #[inline]
    fn execute(&mut self, byte: u8) {
        perform_execute(self.handler, byte);
    }

    fn hook(&mut self, _params: &Params, _intermediates: &[u8], _ignore: bool, _action: char) {}

    fn put(&mut self, _byte: u8) {}

    fn unhook(&mut self) {}

    fn osc_dispatch(&mut self, params: &[&[u8]], bell_terminated: bool) {
        // The pieces always fit if a processor's parser reports them.
        if pieces_fit(params, self.state.text.capacity()) {
            perform_system_command(self.handler, &mut self.state.text, params, bell_terminated);
        }
    }

    #[inline]
    fn csi_dispatch(&mut self, params: &Params, intermediates: &[u8], ignore: bool, action: char) {
        if ignore {
            return;
        }
        if action == 'h' && matches!(intermediates, [b'?']) {
            self.set_private_modes(params);
        } else {
            let last_printed = self.state.last_printed;
            perform_control_sequence::<H, G>(
                self.handler,
                last_printed,
                params,
                intermediates,
                action,
            );
        }
    }

    fn esc_dispatch(&mut self, intermediates: &[u8], _ignore: bool, byte: u8) {
        perform_escape(self.handler, intermediates, byte);
    }

    #[inline]
    fn terminated(&self) -> bool {
        self.terminated
    }
}

impl<'s, 'h, H: HandlerText + ?Sized, T: Timeout, B: TextBuffer> PerformText
    for Performer<'s, 'h, H, T, B, InRuns>
{
    fn keeps_layout(&self) -> bool {
        false
    }

    #[inline(always)]
    fn print_text(&mut self, text: &str) {
        self.handler.input_text(text);
        self.state.last_printed = find_last_printed(text, self.state.last_printed);
    }
}

impl<'s, 'h, H: Handler + ?Sized, T: Timeout, B: TextBuffer, G> Performer<'s, 'h, H, T, B, G> {
    /// Sets the private modes, group by group.
    fn set_private_modes(&mut self, params: &Params) {
        for group in params {
            self.set_private_mode(first_number(group));
        }
    }

    /// Sets a private mode. If it is the mode of updates, the timeout is set before the call.
    fn set_private_mode(&mut self, number: u16) {
        if number == NamedPrivateMode::SyncUpdate as u16 {
            self.state
                .timeout
                .set_timeout(Duration::from_millis(UPDATE_TIMEOUT_MILLIS));
            self.terminated = true;
        }
        change_mode(self.handler, ModeChange::SetPrivate, number);
    }
}

/// Returns the last character of a text, or `before` if the text is empty.
#[inline(always)]
fn find_last_printed(text: &str, before: Option<char>) -> Option<char> {
    text.chars().next_back().or(before)
}

/// Returns whether the joined pieces fit a buffer of this size.
fn pieces_fit(pieces: &[&[u8]], size: usize) -> bool {
    let mut left = size;
    for piece in pieces {
        if piece.len() >= left {
            return false;
        }
        left -= piece.len() + 1;
    }
    true
}
