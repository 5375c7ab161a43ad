//! The processors: those that are proved, with defaults, and errors that are errors of `std`.
use core::alloc::Layout;
use core::fmt;

use crate::adapter::no_memory::NoMemory;
#[cfg(feature = "std")]
use crate::adapter::{end_program::end_without, std_sync_handler::StdSyncHandler};
use crate::proved::vte::ansi::{BoundedProcessor as Bounded, LongProcessor as Long};
use crate::proved::vte_core::Refused;
use crate::proved::vte_handler::{Handler, HandlerText, Timeout};

/// What `Processor` is made from: with `std` there is no limit.
#[cfg(feature = "std")]
type Inner<T> = Long<T>;
#[cfg(not(feature = "std"))]
type Inner<T> = Bounded<T, 1024>;

/// Declares a processor around a proved one: its type, whose timeout has a default with `std`, and
/// what is the same for all of them.
macro_rules! processor {
    (
        $(#[$about:meta])*
        pub struct $name:ident[$($defaults:tt)*][$($generics:tt)*]<$($arguments:ident),*>($inner:ty);
    ) => {
        $(#[$about])*
        #[cfg(feature = "std")]
        #[derive(Clone)]
        pub struct $name<$($defaults)*>($inner);

        $(#[$about])*
        #[cfg(not(feature = "std"))]
        #[derive(Clone)]
        pub struct $name<$($generics)*>($inner);

        impl<$($generics)*> $name<$($arguments),*> {
            /// Returns the timeout.
            pub fn sync_timeout(&self) -> &T {
                self.0.sync_timeout()
            }

            /// Returns the number of bytes that are held back.
            #[inline]
            pub fn sync_bytes_count(&self) -> usize {
                self.0.sync_bytes_count()
            }

            /// Returns whether the open operating system command has lost data bytes, or the last
            /// one if none is open. It loses those after the 16th piece, and those after the limit
            /// if there is one. Bytes that are held back don't count.
            pub fn command_lost_data(&self) -> bool {
                self.0.command_lost_data()
            }

            /// Stops an update: parses the bytes that are held back, calls `unset_private_mode` for
            /// its end, and clears the timeout. It doesn't allocate.
            ///
            /// Call it when the update has expired: `sync_timeout` of a `StdSyncHandler` returns
            /// when that is.
            ///
            /// Text comes by `input`, character by character, also if the handler is a
            /// [`HandlerText`]: one whose `input` does nothing loses the text of the update. For
            /// it, call [`stop_sync_text`](Self::stop_sync_text).
            pub fn stop_sync<H>(&mut self, handler: &mut H)
            where
                H: Handler + ?Sized,
            {
                self.0.stop_sync(handler);
            }

            /// Stops an update as [`stop_sync`](Self::stop_sync) does. Text comes by `input_text`,
            /// in runs, and none by `input`.
            pub fn stop_sync_text<H>(&mut self, handler: &mut H)
            where
                H: HandlerText + ?Sized,
            {
                self.0.stop_sync_text(handler);
            }
        }

        impl<$($generics)*> fmt::Debug for $name<$($arguments),*> {
            fn fmt(&self, f: &mut fmt::Formatter<'_>) -> fmt::Result {
                f.debug_struct(stringify!($name))
                    .field("sync_bytes_count", &self.sync_bytes_count())
                    .finish_non_exhaustive()
            }
        }
    };
}

processor! {
    /// A processor of the bytes that programs send to a terminal, which calls a handler for what
    /// they ask of it.
    ///
    /// The handler is an [`ansi::Handler`](crate::ansi::Handler), or an
    /// [`ansi::lent::Handler`](Handler), which receives texts without owning them.
    ///
    /// Without the feature `std` a processor keeps 1,024 data bytes of an operating system command,
    /// and doesn't allocate after it was created. With `std` it keeps all of them: it allocates
    /// for the next 65,536 bytes before it parses them, and the program ends if there is none, as
    /// for any `Vec`. [`LongProcessor`](crate::ansi::lent::LongProcessor) returns an error instead,
    /// and [`BoundedProcessor`](crate::ansi::BoundedProcessor) has a limit whatever the features.
    ///
    /// ```
    /// use vte::ansi::{Attr, Color, Handler, NamedColor, Processor};
    ///
    /// #[derive(Default)]
    /// struct Screen {
    ///     text: String,
    ///     color: Option<Color>,
    /// }
    ///
    /// impl Handler for Screen {
    ///     fn input(&mut self, c: char) {
    ///         self.text.push(c);
    ///     }
    ///
    ///     fn terminal_attribute(&mut self, attribute: Attr) {
    ///         if let Attr::Foreground(color) = attribute {
    ///             self.color = Some(color);
    ///         }
    ///     }
    /// }
    ///
    /// let mut screen = Screen::default();
    /// # #[cfg(feature = "std")] {
    /// let mut processor: Processor = Processor::new();
    /// processor.advance(&mut screen, b"\x1b[31mred");
    /// assert_eq!(screen.text, "red");
    /// assert_eq!(screen.color, Some(Color::Named(NamedColor::Red)));
    /// # }
    /// ```
    pub struct Processor[T: Timeout = StdSyncHandler][T: Timeout]<T>(Inner<T>);
}

processor! {
    /// A processor whose calls return an error if they are refused memory.
    ///
    /// It keeps commands, titles and links whatever their length, as
    /// [`Processor`](crate::ansi::Processor) does with the feature `std`.
    ///
    /// A call allocates before it parses each 65,536 bytes: for them and an open command, and
    /// for a text that is joined from these. Bytes that are held back take theirs whole. If memory
    /// is refused, the call stops there. Nothing is lost or done twice, and the rest can be passed
    /// in again:
    ///
    /// ```
    /// # #[cfg(feature = "std")] {
    /// use std::error::Error;
    /// use vte::ansi::lent::{Handler, LongProcessor};
    /// use vte::ansi::StdSyncHandler;
    ///
    /// fn read(handler: &mut dyn Handler, bytes: &[u8]) -> Result<(), Box<dyn Error>> {
    ///     let mut processor = LongProcessor::new(StdSyncHandler::default())?;
    ///     if let Err(refused) = processor.advance(handler, bytes) {
    ///         // Free some memory, and go on.
    ///         processor.advance(handler, &bytes[refused.read..])?;
    ///     }
    ///     Ok(())
    /// }
    /// # struct Screen;
    /// # impl Handler for Screen {}
    /// # assert!(read(&mut Screen, b"\x1b]2;title\x07").is_ok());
    /// # }
    /// ```
    pub struct LongProcessor[T: Timeout = StdSyncHandler][T: Timeout]<T>(Long<T>);
}

processor! {
    /// A processor that keeps up to `N` data bytes of an operating system command, and drops the
    /// rest: for streams that aren't trusted.
    ///
    /// It doesn't allocate after it was created, whatever the stream.
    /// [`command_lost_data`](Self::command_lost_data) says whether something was dropped. Titles
    /// and links that are too long are cut. Without the feature `std`,
    /// [`Processor`](crate::ansi::Processor) has the limit 1,024.
    ///
    /// ```
    /// # #[cfg(feature = "std")] {
    /// use vte::ansi::{BoundedProcessor, Handler};
    ///
    /// #[derive(Default)]
    /// struct Title(String);
    ///
    /// impl Handler for Title {
    ///     fn set_title(&mut self, title: Option<String>) {
    ///         self.0 = title.unwrap_or_default();
    ///     }
    /// }
    ///
    /// let mut title = Title::default();
    /// let mut processor = BoundedProcessor::<6>::new();
    /// processor.advance(&mut title, b"\x1b]2;a title\x07");
    /// assert_eq!(title.0, "a tit"); // the code 2 is a byte too
    /// assert!(processor.command_lost_data());
    /// # }
    /// ```
    pub struct BoundedProcessor[const N: usize = 1024, T: Timeout = StdSyncHandler]
        [const N: usize, T: Timeout]<N, T>(Bounded<T, N>);
}

/// Writes what processors have that return no errors: how they are created, and calls that read.
macro_rules! without_errors {
    ([$($generics:tt)*] $name:ty, $inner:ident, $read:ident) => {
        impl<$($generics)*> $name {
            /// Creates a processor that has read nothing, and allocates 2 MiB for updates that are
            /// held back.
            ///
            /// The program ends if memory runs out, as for any `Vec`.
            #[inline]
            pub fn new() -> Self {
                Self::default()
            }

            /// Creates a processor that has read nothing, with a timeout that decides when an
            /// update whose end doesn't come is stopped, and allocates 2 MiB for updates that are
            /// held back.
            ///
            /// # Errors
            ///
            /// Returns the timeout in the error if memory runs out.
            ///
            /// ```
            /// use std::time::Duration;
            /// use vte::ansi::lent::Handler;
            /// use vte::ansi::{Processor, Timeout};
            ///
            /// #[derive(Default)]
            /// struct Never;
            ///
            /// impl Timeout for Never {
            ///     fn set_timeout(&mut self, _: Duration) {}
            ///     fn clear_timeout(&mut self) {}
            ///     fn pending_timeout(&self) -> bool {
            ///         false
            ///     }
            /// }
            ///
            /// #[derive(Default)]
            /// struct Title([u8; 16], usize);
            ///
            /// impl Handler for Title {
            ///     fn set_title(&mut self, title: Option<&str>) {
            ///         let title = title.unwrap_or_default().as_bytes();
            ///         self.1 = title.len().min(16);
            ///         self.0[..self.1].copy_from_slice(&title[..self.1]);
            ///     }
            /// }
            ///
            /// let mut title = Title::default();
            /// if let Ok(mut processor) = Processor::with_timeout(Never) {
            ///     processor.advance(&mut title, b"\x1b]2;shell\x07");
            ///     assert_eq!(&title.0[..title.1], b"shell");
            /// }
            /// ```
            pub fn with_timeout(timeout: T) -> Result<Self, NoMemory<T>> {
                let inner = $inner::new(timeout).map_err(|timeout| NoMemory { timeout })?;
                Ok(Self(inner))
            }

            /// Reads the next bytes of the stream, and parses them, or holds them back while an
            /// update is pending.
            ///
            /// `handler` receives the calls of the bytes that are parsed. The bytes of an update
            /// are parsed when it ends. An unfinished character or sequence at the end waits for
            /// more bytes.
            #[inline]
            pub fn advance<H>(&mut self, handler: &mut H, bytes: &[u8])
            where
                H: Handler + ?Sized,
            {
                $read(self.0.advance(handler, bytes), bytes.len());
            }

            /// Reads the next bytes as [`advance`](Self::advance) does. Text comes by `input_text`,
            /// in runs, and none by `input`.
            #[inline]
            pub fn advance_text<H>(&mut self, handler: &mut H, bytes: &[u8])
            where
                H: HandlerText + ?Sized,
            {
                $read(self.0.advance_text(handler, bytes), bytes.len());
            }
        }

        impl<$($generics)*> Default for $name {
            fn default() -> Self {
                match Self::with_timeout(T::default()) {
                    Ok(processor) => processor,
                    // as `Vec::with_capacity` ends
                    Err(_) => alloc::alloc::handle_alloc_error(Layout::new::<[u8; 0x20_0000]>()),
                }
            }
        }
    };
}

without_errors!([T: Timeout] Processor<T>, Inner, end_if_refused);
without_errors!([const N: usize, T: Timeout] BoundedProcessor<N, T>, Bounded, is_never_refused);

/// Ends the program if memory was refused to a call with this many bytes.
#[cfg(feature = "std")]
#[inline(always)]
fn end_if_refused(outcome: Result<(), Refused>, count: usize) {
    if let Err(Refused { read }) = outcome {
        end_without(count - read);
    }
}

#[cfg(not(feature = "std"))]
use is_never_refused as end_if_refused;

/// A processor with a limit needs no memory after it was created.
#[inline(always)]
fn is_never_refused(_outcome: (), _count: usize) {}

#[cfg(feature = "std")]
impl<T: Timeout> Processor<T> {
    /// Gives back the memory that an open operating system command doesn't need, for instance after
    /// a giant one, unless bytes are held back. The 2 MiB for updates stay.
    pub fn shrink(&mut self) {
        self.0.shrink();
    }
}

impl<T: Timeout> LongProcessor<T> {
    /// Creates a processor that has read nothing, and allocates 2 MiB for updates that are held
    /// back.
    ///
    /// # Errors
    ///
    /// Returns the timeout in the error if memory runs out.
    pub fn new(timeout: T) -> Result<Self, NoMemory<T>> {
        let inner = Long::new(timeout).map_err(|timeout| NoMemory { timeout })?;
        Ok(LongProcessor(inner))
    }

    /// Takes memory for the bytes that are held back and for this many more, and returns whether it
    /// is there. Calls with no more bytes than that are then never refused memory.
    #[must_use = "the memory may be refused"]
    pub fn reserve(&mut self, more: usize) -> bool {
        self.0.reserve(more)
    }

    /// Gives back the memory that an open operating system command doesn't need, unless bytes are
    /// held back. The 2 MiB for updates stay.
    pub fn shrink(&mut self) {
        self.0.shrink();
    }

    /// Reads bytes, and parses them or holds them back, as
    /// [`Processor::advance`](crate::ansi::Processor::advance) does: all of them, or as many as
    /// there is memory for.
    #[inline]
    pub fn advance<H>(&mut self, handler: &mut H, bytes: &[u8]) -> Result<(), Refused>
    where
        H: Handler + ?Sized,
    {
        self.0.advance(handler, bytes)
    }

    /// Reads bytes as [`advance`](Self::advance) does. Text comes by `input_text`, in runs, and
    /// none by `input`.
    #[inline]
    pub fn advance_text<H>(&mut self, handler: &mut H, bytes: &[u8]) -> Result<(), Refused>
    where
        H: HandlerText + ?Sized,
    {
        self.0.advance_text(handler, bytes)
    }
}
