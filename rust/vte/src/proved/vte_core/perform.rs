// Written by tools/erase from crates/vte_core/src/perform.rt: edit that one.
//! The events of a stream, and what receives them.

use crate::proved::vte_core::params::Params;

/// Receives the events of a stream, one call for each, in order.
///
/// The slices are borrowed for the call only.
#[allow(unused_variables)]
#[doc = include_str!("../../docs/perform.md")]
pub trait Perform {
    /// Called for a character to print, which is never a control: neither U+0000 to U+001F nor
    /// U+0080 to U+009F.
    fn print(&mut self, c: char) {}

    /// Called for a control function of one byte, 00 to 1F or 80 to 9F.
    fn execute(&mut self, byte: u8) {}

    /// Called when a device control string starts, with the final byte `action` of its head.
    ///
    /// There are at most two intermediates, a private marker `<` to `?` among them. `ignore` says
    /// that there were more, or more than 32 numbers.
    fn hook(&mut self, params: &Params, intermediates: &[u8], ignore: bool, action: char) {}

    /// Called for a data byte of the device control string.
    fn put(&mut self, byte: u8) {}

    /// Called when the device control string ends.
    fn unhook(&mut self) {}

    /// Called when an operating system command ends, with its 1 to 16 pieces, and whether BEL ended
    /// it.
    ///
    /// A cancelled command looks the same as one that `ESC \` ended. The next event shows which it
    /// was: [`execute`](Self::execute) of CAN (18) or SUB (1A) if one of these cancelled it, and
    /// [`esc_dispatch`](Self::esc_dispatch) with the byte `\` if it ended. What follows the 16th
    /// piece, and what is over the parser's limit, is dropped without an event: a link (OSC 8) is
    /// cut at the 14th `;` of its URI. `command_lost_data` of the parser says whether data were
    /// dropped.
    fn osc_dispatch(&mut self, params: &[&[u8]], bell_terminated: bool) {}

    /// Called for a control sequence with the final byte `action`. `intermediates` and `ignore` are
    /// as in [`hook`](Self::hook).
    fn csi_dispatch(&mut self, params: &Params, intermediates: &[u8], ignore: bool, action: char) {}

    /// Called for an escape sequence with the final byte `byte`. There are at most two
    /// intermediates; `ignore` says that there were more.
    fn esc_dispatch(&mut self, intermediates: &[u8], ignore: bool, byte: u8) {}

    /// Returns whether `advance_until_terminated` stops. It is asked after events, and not before
    /// each byte: the answer should depend on the events alone, and on no clock or flag that
    /// changes between them.
    fn terminated(&self) -> bool {
        false
    }
}

/// Receives text in runs, from methods whose names begin with `advance_text`: there
/// [`print`](Perform::print) and [`put`](Perform::put) aren't called.
///
/// All others, such as `advance` and `advance_to_run`, pass text by `print`, and never by
/// `print_text`. A performer that leaves `print` empty loses their text, so implement both.
///
/// How text and data are cut into runs may change from version to version.
#[doc = include_str!("../../docs/perform_text.md")]
pub trait PerformText: Perform {
    /// Returns whether HT (09), LF (0A) and CR (0D) come by `print_text` instead of
    /// [`execute`](Perform::execute), always the same answer. A filter, which keeps these three as
    /// they are, is faster with longer runs.
    fn keeps_layout(&self) -> bool {
        false
    }

    /// Called for characters to print, at least one, in order. None is a control, except HT, LF and
    /// CR if the performer [keeps](Self::keeps_layout) these.
    fn print_text(&mut self, text: &str);

    /// Called for data bytes of the device control string, at least one, in order. By default each
    /// comes by [`put`](Perform::put).
    ///
    /// ```
    /// # use vte::{Parser, Perform, PerformText};
    /// # #[derive(Default)]
    /// # struct Image { data: Vec<u8> }
    /// # impl Perform for Image {}
    /// impl PerformText for Image {
    ///     fn print_text(&mut self, _text: &str) {}
    ///
    ///     fn put_slice(&mut self, bytes: &[u8]) {
    ///         self.data.extend_from_slice(bytes);
    ///     }
    /// }
    /// # let mut image = Image::default();
    /// # Parser::new().advance_text(&mut image, b"\x1bPq#0~~\x1b\\");
    /// # assert_eq!(image.data, b"#0~~");
    /// ```
    fn put_slice(&mut self, bytes: &[u8]) {
        for byte in bytes {
            self.put(*byte);
        }
    }
}
