//! The parser of the feature `std`: one without a limit, that ends the program if memory is
//! refused.
use crate::adapter::end_program::end_without;
use crate::proved::vte_core::{LongParser, Open, Perform, PerformText, Refused, Run};

/// A parser of the bytes that programs send to a terminal.
///
/// It reads a stream in chunks of any length, and calls a [`Perform`] for each event.
///
/// ```
/// # use vte::{Parser, Perform};
/// # struct Performer;
/// # impl Perform for Performer {}
/// # let mut performer = Performer;
/// let mut parser = Parser::new();
/// parser.advance(&mut performer, b"a\x1b[1");
/// parser.advance(&mut performer, b"m"); // one `csi_dispatch`, of the two chunks together
/// ```
///
/// With the feature `std` it keeps all data bytes of an operating system command, and
/// `OSC_RAW_BUF_SIZE` has no effect. The program ends if memory runs out, as for any `Vec`;
/// [`LongParser`](crate::LongParser) returns an error instead, and
/// [`BoundedParser`](crate::BoundedParser) keeps that many of these bytes, as this type does
/// without the feature.
#[derive(Clone)]
pub struct Parser<const OSC_RAW_BUF_SIZE: usize = 1024>(LongParser);

impl Parser {
    /// Creates a parser that has read nothing. It doesn't allocate.
    pub const fn new() -> Self {
        Parser(LongParser::new())
    }
}

impl<const OSC_RAW_BUF_SIZE: usize> Default for Parser<OSC_RAW_BUF_SIZE> {
    fn default() -> Self {
        Parser(LongParser::new())
    }
}

impl<const OSC_RAW_BUF_SIZE: usize> Parser<OSC_RAW_BUF_SIZE> {
    /// Reads the next bytes of the stream, and reports the events that they add to it.
    ///
    /// However calls split the stream, the events are the same. A character or sequence that is
    /// open at the end waits for more bytes.
    pub fn advance<P: Perform + ?Sized>(&mut self, performer: &mut P, bytes: &[u8]) {
        if let Err(Refused { read }) = self.0.advance(performer, bytes) {
            end_without(bytes.len() - read);
        }
    }

    /// Reads the next bytes of the stream as [`advance`](Self::advance) does, and passes characters
    /// to print in [runs](PerformText), and the data of device control strings in
    /// [slices](PerformText::put_slice).
    pub fn advance_text<P: PerformText + ?Sized>(&mut self, performer: &mut P, bytes: &[u8]) {
        if let Err(Refused { read }) = self.0.advance_text(performer, bytes) {
            end_without(bytes.len() - read);
        }
    }

    /// Reads bytes until the performer is terminated, and returns how many were read.
    ///
    /// A character that an earlier call began is finished first. Then the performer is asked, and
    /// again after each character, malformed sequence or byte that was reported. While nothing is
    /// reported, many bytes may be read between two questions. An open character at the end
    /// of the bytes counts as read.
    #[must_use = "the bytes after the stop are still to be read"]
    pub fn advance_until_terminated<P: Perform + ?Sized>(
        &mut self,
        performer: &mut P,
        bytes: &[u8],
    ) -> usize {
        match self.0.advance_until_terminated(performer, bytes) {
            Ok(read) => read,
            Err(Refused { read }) => end_without(bytes.len() - read),
        }
    }

    /// Gives back the memory that an open operating system command doesn't need, for instance after
    /// a giant one.
    pub fn shrink(&mut self) {
        self.0.shrink();
    }

    /// Reads bytes up to and including a run of text, or of the data of a device control string.
    /// Returns the run instead of reporting it.
    ///
    /// Most text comes in the returned runs. A character that was divided between two calls, and
    /// U+FFFD for malformed bytes, come by [`print`](Perform::print), and a performer whose `print`
    /// does nothing loses them.
    ///
    /// A caller can take text from its own input in this way, with its position and without a copy:
    ///
    /// ```
    /// # use vte::{Parser, Perform, Taken};
    /// #[derive(Default)]
    /// struct Text(String);
    ///
    /// impl Perform for Text {
    ///     fn print(&mut self, c: char) {
    ///         self.0.push(c);
    ///     }
    /// }
    ///
    /// let (mut parser, mut text) = (Parser::new(), Text::default());
    /// for mut bytes in [&b"\x1b[1mna\xc3"[..], b"\xafve\r\n"] {
    ///     while !bytes.is_empty() {
    ///         let run = parser.advance_to_run(&mut text, bytes); // reports what isn't in the run
    ///         if let Taken::Text(taken) = run.taken {
    ///             text.0.push_str(taken);
    ///         }
    ///         bytes = &bytes[run.end..];
    ///     }
    /// }
    /// assert_eq!(text.0, "naïve");
    /// ```
    ///
    /// A run begins at a whole character that is printed as it is, if nothing is open before it, or
    /// at a data byte that is put. It ends before the first control, malformed sequence, open
    /// character or byte that isn't put. What an earlier call began is reported. Without a run,
    /// the call ends with the bytes, or when the performer is terminated. It is asked as by
    /// [`advance_until_terminated`](Self::advance_until_terminated).
    #[must_use = "the bytes after the run are still to be read"]
    pub fn advance_to_run<'a, P: Perform + ?Sized>(
        &mut self,
        performer: &mut P,
        bytes: &'a [u8],
    ) -> Run<'a> {
        match self.0.advance_to_run(performer, bytes) {
            Ok(run) => run,
            Err(Refused { read }) => end_without(bytes.len() - read),
        }
    }

    /// Returns whether the open operating system command has lost data bytes, or the last one if
    /// none is open. It loses those after the 16th piece.
    pub fn command_lost_data(&self) -> bool {
        self.0.command_lost_data()
    }

    /// Returns what is open, if anything is.
    ///
    /// It began at the last ESC, or is at most three bytes of a character.
    pub fn open(&self) -> Open {
        self.0.open()
    }

    /// Returns whether a character or a sequence is open.
    pub fn is_open(&self) -> bool {
        self.0.is_open()
    }
}
