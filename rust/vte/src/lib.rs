//! A parser for terminal escape sequences, and a processor that knows what they mean.
//!
//! [`Parser`] reads a stream in chunks of any length and calls a [`Perform`] for each event: a
//! character to print, a control to execute, a sequence to dispatch. `ansi::Processor`, with the
//! feature `ansi`, knows what the events ask of a terminal, and calls an `ansi::Handler`.
//!
//! Both have the interface of the crate `vte` 0.15, and are made from code that is proved correct;
//! `docs/RUST.md` of the repository says what the proof covers.
//!
//! ```
//! use vte::{Parser, Perform};
//!
//! struct Text(String);
//!
//! impl Perform for Text {
//!     fn print(&mut self, c: char) {
//!         self.0.push(c);
//!     }
//! }
//!
//! fn main() {
//!     let (mut parser, mut text) = (Parser::new(), Text(String::new()));
//!     // The events are the same, however the stream is split.
//!     parser.advance(&mut text, b"a \x1b[1;3");
//!     parser.advance(&mut text, b"1mcoloured\x1b[0m line");
//!     assert_eq!(text.0, "a coloured line");
//! }
//! ```
//!
//! # Features
//!
//! - `std` (default): operating system commands, titles and links are kept whatever their length,
//!   and the parameter of [`Parser`] has no effect. Without it, [`Parser`] is [`BoundedParser`],
//!   which keeps as many data bytes of a command as its parameter says.
//! - `ansi`: the processor.
//! - `serde`: colours can be serialized.
//!
//! The crate is `no_std` without `std`, and needs no allocator without `ansi` either.
//!
//! # Memory
//!
//! A parser has some 300 bytes and memory for the longest command that it has read; a
//! [`BoundedParser`], as many bytes more as its parameter says, and no other memory. A processor
//! also takes 2 MiB for updates when it is created. With `std`, before it parses the next 64 KiB of
//! a call or holds bytes back, it takes twice the memory of these bytes and an open command. It
//! keeps that, as a parser keeps its own, until `shrink`. The program ends if memory runs out, as
//! for any `Vec`; `LongParser` and `ansi::lent::LongProcessor` return an error instead. A copy of a
//! parser or processor has read the same, and takes as much memory. An `ansi::BoundedProcessor`
//! takes all its memory when it is created: use it, or a [`BoundedParser`], for streams that aren't
//! trusted.
//!
//! # The end of a stream
//!
//! A character or sequence that is unfinished when the stream ends makes no event, and `is_open` of
//! the parser says whether there is one. To perform what the unfinished one still gives, pass in
//! CAN, which ends everything:
//!
//! ```
//! # use vte::{Parser, Perform};
//! #[derive(Default)]
//! struct Events(String);
//!
//! impl Perform for Events {
//!     fn print(&mut self, c: char) {
//!         self.0.push(c);
//!     }
//!
//!     fn osc_dispatch(&mut self, params: &[&[u8]], _: bool) {
//!         self.0 += &format!("<{}>", String::from_utf8_lossy(&params.concat()));
//!     }
//! }
//!
//! let mut events = Events::default();
//! for stream in [&b"caf\xc3"[..], b"\x1b]2;title", b"\x1b[1;3"] {
//!     let mut parser = Parser::new();
//!     parser.advance(&mut events, stream);
//!     if parser.is_open() {
//!         parser.advance(&mut events, b"\x18");
//!     }
//! }
//! assert_eq!(events.0, "caf\u{fffd}<2title>");
//! ```
//!
//! So a truncated character is printed as U+FFFD, a device control string is unhooked, and an
//! operating system command is dispatched with what came of it: whether that should count is for
//! the program to say. Then `execute` is called with CAN, which wasn't in the stream. A processor
//! may also hold bytes back: call `stop_sync` at the end.
//!
//! # Beyond `vte`
//!
//! These items aren't in `vte` 0.15, and a minor version of ours may change them (`CHANGELOG.md`).
//! All others have the names, signatures and behaviour of `vte`.
//!
//! - Text in runs: [`PerformText`], [`Parser::advance_text`], `ansi::HandlerText`; runs of your own
//!   input: [`Parser::advance_to_run`], [`Run`], [`Taken`]
//! - Streams that aren't trusted: [`BoundedParser`], `ansi::BoundedProcessor`,
//!   [`Parser::command_lost_data`]
//! - Refused memory: `LongParser`, `Refused`, `ansi::lent::LongProcessor`, `ansi::NoMemory`; memory
//!   given back: `shrink`
//! - What is unfinished: [`Parser::open`], [`Open`], [`Parser::is_open`]
//! - A stream in parts, for threads: [`parts()`], [`Parts`]
//! - Texts that aren't copied: `ansi::lent`
//!
//! # Performers that panic
//!
//! A parser whose [`Perform`] panics is safe to use and to drop, but it is unknown how many bytes
//! of the call it has read, and whether the sequence that it was reporting has ended for it. Create
//! a new one.
#![cfg_attr(not(feature = "std"), no_std)]
#![cfg_attr(docsrs, feature(doc_cfg))]
#![deny(unsafe_code, unsafe_op_in_unsafe_fn, unconditional_recursion)]
#![deny(clippy::undocumented_unsafe_blocks)]
#![warn(missing_debug_implementations, missing_docs)]
// the first example is a whole program, which compiles where it is pasted
#![allow(clippy::needless_doctest_main)]

// Sums of lengths and positions are proved for 64 bits, and fit into 32 (docs/ASSUMPTIONS.md).
#[cfg(target_pointer_width = "16")]
compile_error!("vte needs addresses of at least 32 bits");

#[cfg(any(feature = "std", feature = "ansi"))]
extern crate alloc;

/// The example of the README is run with the others.
#[cfg(doctest)]
#[doc = include_str!("../README.md")]
struct Readme;

mod adapter;
mod prelude;
mod proved;

#[cfg(feature = "std")]
pub use adapter::parser::Parser;
#[cfg(not(feature = "std"))]
pub use proved::vte_core::Parser;
pub use proved::vte_core::Parser as BoundedParser;
pub use proved::vte_core::{
    parts, Open, Params, ParamsIter, Parts, Perform, PerformText, Run, Taken,
};
#[cfg(any(feature = "std", feature = "ansi"))]
pub use proved::vte_core::{LongParser, Refused};
#[cfg(feature = "__own")]
#[doc(hidden)]
pub use {
    adapter::internal_items::{skip_to_command, InternalCalls},
    proved::vte_core::Saved,
};

/// A processor that calls a handler for what the events of a stream ask of a terminal.
#[cfg(feature = "ansi")]
pub mod ansi {
    pub use crate::adapter::hyperlink::Hyperlink;
    pub use crate::adapter::no_memory::NoMemory;
    pub use crate::adapter::processor::{BoundedProcessor, Processor};
    #[cfg(feature = "std")]
    pub use crate::adapter::std_sync_handler::StdSyncHandler;
    pub use crate::proved::vte_handler::owned::Handler;
    pub use crate::proved::vte_handler::{HandlerText, Timeout};
    pub use crate::proved::vte_types::{
        Attr, CharsetIndex, ClearMode, Color, CursorShape, CursorStyle, KeyboardModes,
        KeyboardModesApplyBehavior, LineClearMode, Mode, ModifyOtherKeys, NamedColor, NamedMode,
        NamedPrivateMode, PrivateMode, Rgb, ScpCharPath, ScpUpdateMode, StandardCharset,
        TabulationClearMode, C0,
    };
    #[doc(inline)]
    pub use cursor_icon;

    /// Handlers that take texts without owning them, so that they aren't copied, and a processor
    /// that returns errors.
    pub mod lent {
        pub use crate::adapter::processor::LongProcessor;
        #[cfg(feature = "__own")]
        #[doc(hidden)]
        pub use crate::proved::vte_handler::{ByCall, HandlerCall, TakeCall, TakeText};
        pub use crate::proved::vte_handler::{Handler, Hyperlink};
    }
}
