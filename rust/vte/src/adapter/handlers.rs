//! Handlers whose texts are owned, as those of the crate `vte` are.

/// Writes two traits of one list of methods: `Handler`, and `owned::Handler`, which receives copies
/// of some arguments. Whatever implements the second also implements the first.
macro_rules! handlers {
    (
        $(#[$about:meta])*
        pub trait Handler;
        $(
            $(#[$doc:meta])*
            fn $method:ident(
                &mut self $(, $argument:ident: $type:ty $(as $owned:ty = $copy:expr)?)*
            ) {}
        )*
    ) => {
        $(#[$about])*
        #[allow(unused_variables)]
        pub trait Handler {
            $(
                $(#[$doc])*
                fn $method(&mut self $(, $argument: $type)*) {}
            )*
        }

        impl<H: owned::Handler + ?Sized> Handler for H {
            $(
                #[inline]
                fn $method(&mut self $(, $argument: $type)*) {
                    owned::Handler::$method(
                        self $(, $crate::adapter::handlers::last!($argument $($copy)?))*
                    );
                }
            )*
        }

        /// The handlers that receive copies.
        pub(crate) mod owned {
            use super::*;
            use crate::adapter::hyperlink::Hyperlink;

            $(#[$about])*
            ///
            /// Each method does nothing by default:
            ///
            /// ```
            /// use vte::ansi::{Handler, LineClearMode};
            /// # #[cfg(feature = "std")]
            /// use vte::ansi::Processor;
            ///
            /// #[derive(Default)]
            /// struct Line(String);
            ///
            /// impl Handler for Line {
            ///     fn input(&mut self, c: char) {
            ///         self.0.push(c);
            ///     }
            ///
            ///     fn clear_line(&mut self, mode: LineClearMode) {
            ///         if matches!(mode, LineClearMode::All) {
            ///             self.0.clear();
            ///         }
            ///     }
            /// }
            ///
            /// # #[cfg(feature = "std")] {
            /// let mut line = Line::default();
            /// let mut processor: Processor = Processor::new();
            /// processor.advance(&mut line, b"old\x1b[2Knew");
            /// assert_eq!(line.0, "new");
            /// # }
            /// ```
            #[allow(unused_variables)]
            pub trait Handler {
                $(
                    $(#[$doc])*
                    fn $method(
                        &mut self
                        $(, $argument: $crate::adapter::handlers::last!($type $($owned)?))*
                    ) {}
                )*
            }
        }
    };
}

/// The second of two, or the only one.
macro_rules! last {
    ($one:tt) => {
        $one
    };
    ($one:tt $last:tt) => {
        $last
    };
}

pub(crate) use {handlers, last};
