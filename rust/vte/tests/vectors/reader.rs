//! A processor with each kind of handler, and a timeout whose answers are known.

use std::cell::{Cell, RefCell};
use std::rc::Rc;
use std::time::Duration;

#[cfg(feature = "__own")]
use vte::ansi::lent::ByCall;
use vte::ansi::{Handler, Processor, Timeout};

#[cfg(feature = "__own")]
use super::by_call::Values;
use super::call_lines::{CallLines, Lent};

/// A processor that passes texts in one way.
pub trait Reader: Default {
    fn read(&mut self, lines: &mut CallLines, bytes: &[u8]);
    fn stop(&mut self, lines: &mut CallLines);
    fn processor(&self) -> &Processor<TestTimeout>;

    fn held(&self) -> usize {
        self.processor().sync_bytes_count()
    }

    fn timeout(&self) -> &TestTimeout {
        self.processor().sync_timeout()
    }

    fn calls_of(chunks: &[&[u8]]) -> String {
        let (mut reader, mut lines) = (Self::default(), CallLines::default());
        chunks.iter().for_each(|it| reader.read(&mut lines, it));
        lines.take()
    }
}

macro_rules! readers {
    ($($name:ident: $advance:ident, $stop:ident, $lines:ident => $handler:expr;)*) => {
        $(
            #[derive(Default)]
            pub struct $name(Processor<TestTimeout>);

            impl Reader for $name {
                fn read(&mut self, $lines: &mut CallLines, bytes: &[u8]) {
                    self.0.$advance($handler, bytes);
                }

                fn stop(&mut self, $lines: &mut CallLines) {
                    self.0.$stop($handler);
                }

                fn processor(&self) -> &Processor<TestTimeout> {
                    &self.0
                }
            }
        )*
    };
}

readers! {
    OwnedTexts: advance, stop_sync, lines => lines;
    ByObject: advance, stop_sync, lines => lines as &mut dyn Handler;
    OwnedTextsInRuns: advance_text, stop_sync_text, lines => lines;
    LentTexts: advance, stop_sync, lines => &mut Lent(lines);
    LentTextsInRuns: advance_text, stop_sync_text, lines => &mut Lent(lines);
}

#[cfg(feature = "__own")]
readers! {
    CallsInRuns: advance_text, stop_sync_text, lines => &mut ByCall(Values(lines));
}

/// A timeout that counts and writes down its calls.
#[derive(Default)]
pub struct TestTimeout {
    /// When it is pending: the `timeout` of a vector, or "" for "counting".
    pub answers: RefCell<String>,
    /// How many times it was set since it was last cleared.
    pub count: usize,
    /// Where each set and clear is written, which may be the lines of a handler.
    pub log: RefCell<Rc<RefCell<String>>>,
    was_asked: Cell<bool>,
    pub is_expired: Cell<bool>,
}

impl Timeout for TestTimeout {
    fn set_timeout(&mut self, duration: Duration) {
        self.count += 1;
        self.is_expired.set(false);
        let line = format!("set_timeout {}\n", duration.as_millis());
        self.log.borrow().borrow_mut().push_str(&line);
    }

    fn clear_timeout(&mut self) {
        self.count = 0;
        self.log.borrow().borrow_mut().push_str("clear_timeout\n");
    }

    fn pending_timeout(&self) -> bool {
        match self.answers.borrow().as_str() {
            "" | "counting" => self.count != 0,
            "always" => true,
            "never" => false,
            // from question to question, the first time
            "alternating" => !self.was_asked.replace(!self.was_asked.get()),
            "expiring" => self.count != 0 && !self.is_expired.get(),
            answers => panic!("no such timeout: {answers}"),
        }
    }
}
