//! Programs that are odd and valid: references, boxes and wrappers as performers and handlers.
//!
//! The fuzz target `beside_vte` compiles and runs this file over `vte` 0.15 too (fuzz/lines).

use std::cell::RefCell;
use std::fmt::Write;
use std::mem;
use std::rc::Rc;

#[cfg(feature = "ansi")]
use vte::ansi::{Attr, Handler};
use vte::{Params, Parser, Perform};

/// A text, a control sequence, and a character that is cut.
const CHUNKS: [&[u8]; 3] = [b"a\x1b[", b"7mb\xc3", b"\xa9"];
const WRITTEN: &str = "a<7>b\u{e9}";

/// Writes characters, and the first numbers of control sequences.
#[derive(Default)]
struct Log(String);

impl Perform for Log {
    fn print(&mut self, c: char) {
        self.0.push(c);
    }

    fn csi_dispatch(&mut self, params: &Params, _: &[u8], _: bool, _: char) {
        let first = params.iter().next().unwrap_or_default();
        write!(self.0, "<{}>", first[0]).unwrap();
    }
}

/// A performer and, with `ansi`, a handler.
#[cfg(not(feature = "ansi"))]
trait Both: Perform {}
#[cfg(feature = "ansi")]
trait Both: Perform + Handler {}

#[cfg(not(feature = "ansi"))]
impl<P: Perform + ?Sized> Both for P {}
#[cfg(feature = "ansi")]
impl<P: Perform + Handler + ?Sized> Both for P {}

/// Its objects are both behind a reference or in a box.
trait Screen: Both {
    fn written(&self) -> &str;
}

impl Screen for Log {
    fn written(&self) -> &str {
        &self.0
    }
}

/// Its objects are both themselves.
trait Page {
    fn log(&mut self) -> &mut Log;
}

impl Page for Log {
    fn log(&mut self) -> &mut Log {
        self
    }
}

/// A performer around any other.
struct Around<'a, P: ?Sized>(&'a mut P);

/// A performer with several owners.
#[derive(Clone, Default)]
struct Shared(Rc<RefCell<Log>>);

/// Implements both for types that pass events and calls on to another one.
macro_rules! pass_on {
    ($([$($generics:tt)*] $type:ty, $this:ident => $performer:expr;)*) => {$(
        impl<$($generics)*> Perform for $type {
            fn print(&mut self, c: char) {
                let $this = self;
                $performer.print(c);
            }

            fn csi_dispatch(&mut self, params: &Params, bytes: &[u8], ignore: bool, action: char) {
                let $this = self;
                $performer.csi_dispatch(params, bytes, ignore, action);
            }
        }

        #[cfg(feature = "ansi")]
        impl<$($generics)*> Handler for $type {
            fn input(&mut self, c: char) {
                let $this = self;
                $performer.input(c);
            }

            fn terminal_attribute(&mut self, attribute: Attr) {
                let $this = self;
                $performer.terminal_attribute(attribute);
            }
        }
    )*};
}

pass_on! {
    [] &mut Log, this => (**this);
    ['a] &mut (dyn Screen + 'a), this => (**this);
    [] Box<dyn Screen>, this => (**this);
    ['a] dyn Page + 'a, this => this.log();
    ['a, P: Both + ?Sized] Around<'a, P>, this => this.0;
    [] Shared, this => this.0.borrow_mut();
    [] &Shared, this => this.0.borrow_mut();
}

/// Reads the chunks with a performer of any type, and returns it.
fn read<P: Perform>(mut performer: P) -> P {
    let mut parser = Parser::new();
    for chunk in CHUNKS {
        parser.advance(&mut performer, chunk);
    }
    performer
}

/// A type that has the parser which calls it, by the name of the function.
#[derive(Default)]
struct Terminal {
    parser: Parser<16>,
    log: Log,
}

impl Terminal {
    fn advance(&mut self, bytes: &[u8]) {
        let mut parser = mem::take(&mut self.parser);
        let advance: fn(&mut Parser<16>, &mut Self, &[u8]) = Parser::advance::<Self>;
        advance(&mut parser, self, bytes);
        self.parser = parser;
    }
}

pass_on!([] Terminal, this => this.log;);

/// Asserts that each type is passed what is read.
macro_rules! assert_all_read {
    ($read:ident) => {
        let (mut log, shared) = (Log::default(), Shared::default());
        assert_eq!($read(&mut log).0, WRITTEN);
        let screen: &mut dyn Screen = &mut log;
        assert_eq!($read(screen).written(), WRITTEN.repeat(2));
        let boxed: Box<dyn Screen> = Box::<Log>::default();
        assert_eq!($read(boxed).written(), WRITTEN);
        let page: &mut dyn Page = &mut log;
        assert_eq!($read(Around(page)).0.log().0, WRITTEN.repeat(3));
        let mut around = Around(&mut log);
        assert_eq!($read(Around(&mut around)).0 .0 .0, WRITTEN.repeat(4));
        $read(&shared);
        assert_eq!($read(shared).0.borrow().0, WRITTEN.repeat(2));
        let mut object: Box<dyn Both> = Box::new(log);
        $read(Around(&mut *object));
    };
}

fn read_by_performers() {
    assert_all_read!(read);
    let mut terminal = Terminal::default();
    for chunk in CHUNKS {
        terminal.advance(chunk);
    }
    assert_eq!(terminal.log.0, WRITTEN);
}

#[cfg(feature = "ansi")]
mod handlers {
    use std::time::Duration;

    use vte::ansi::{Attr, Color, Handler, Processor, Timeout};

    use super::{Around, Both, Log, Page, Screen, Shared, CHUNKS, WRITTEN};

    impl Handler for Log {
        fn input(&mut self, c: char) {
            self.0.push(c);
        }

        fn terminal_attribute(&mut self, attribute: Attr) {
            self.0.push_str(match attribute {
                Attr::Reverse => "<7>",
                Attr::Foreground(Color::Spec(_)) => "colour",
                _ => "",
            });
        }
    }

    #[derive(Default)]
    struct Never;

    impl Timeout for Never {
        fn set_timeout(&mut self, _: Duration) {}

        fn clear_timeout(&mut self) {}

        fn pending_timeout(&self) -> bool {
            false
        }
    }

    /// A processor behind a trait, which knows neither its timeout nor the handler's type.
    trait Reader<H: ?Sized> {
        fn read(&mut self, handler: &mut H, bytes: &[u8]);
    }

    impl<H: Handler, T: Timeout> Reader<H> for Processor<T> {
        fn read(&mut self, handler: &mut H, bytes: &[u8]) {
            self.advance::<H>(handler, bytes);
            self.stop_sync(handler);
        }
    }

    fn read<H: Handler>(mut handler: H) -> H {
        let mut processor: Box<dyn Reader<H>> = Box::new(Processor::<Never>::default());
        for chunk in CHUNKS {
            processor.read(&mut handler, chunk);
        }
        handler
    }

    pub fn read_by_handlers() {
        assert_all_read!(read);
    }
}

pub fn run() {
    read_by_performers();
    #[cfg(feature = "ansi")]
    handlers::read_by_handlers();
}

#[test]
fn what_compiles_with_vte_compiles() {
    run();
}
