//! Both processors.

use real::ansi::{lent, Handler, HandlerText, NoMemory, Timeout};
use real::Refused;

use crate::{has, read_by};

/// How often a processor was advanced, whether the last time was in runs, and whether that was
/// after an update was stopped.
#[derive(Default)]
struct Turns {
    count: usize,
    is_in_runs: bool,
    is_after_stop: bool,
}

impl Turns {
    /// Whether bytes are lost at the next turn, as one of the differences says.
    fn is_different(&mut self, of: &str, held: usize, is_in_runs: bool) -> bool {
        (self.count, self.is_in_runs) = (self.count + 1, is_in_runs);
        has(of, "always")
            || has(of, "whole") && self.count == 1 && !is_in_runs
            || has(of, "after a stop") && self.is_after_stop
            || has(of, "in chunks") && self.count > 1 && held == 0 && !is_in_runs
            || has(of, "in runs") && held == 0 && is_in_runs
            || has(of, "in an update") && held > 0 && !is_in_runs
            || has(of, "in an update in runs") && held > 0 && is_in_runs
    }
}

macro_rules! processor {
    ($of:expr, $name:ident, $real:ty, $handler:path, $outcome:ty) => {
        pub struct $name<T: Timeout> {
            real: $real,
            turns: Turns,
        }

        impl<T: Timeout> $name<T> {
            pub fn advance<H: $handler + ?Sized>(
                &mut self,
                handler: &mut H,
                bytes: &[u8],
            ) -> $outcome {
                let held = self.real.sync_bytes_count();
                let is_different = self.turns.is_different($of, held, false);
                self.real.advance(handler, &read_by(is_different, bytes))
            }

            pub fn advance_text<H: HandlerText + $handler + ?Sized>(
                &mut self,
                handler: &mut H,
                bytes: &[u8],
            ) -> $outcome {
                let held = self.real.sync_bytes_count();
                let is_different = self.turns.is_different($of, held, true);
                self.real
                    .advance_text(handler, &read_by(is_different, bytes))
            }

            pub fn stop_sync<H: $handler + ?Sized>(&mut self, handler: &mut H) {
                let is_expired = !self.real.sync_timeout().pending_timeout();
                let is_lost = has($of, "at a stop") || has($of, "expired") && is_expired;
                self.turns.is_after_stop |= self.real.sync_bytes_count() > 0;
                if self.real.sync_bytes_count() == 0 || !is_lost {
                    self.real.stop_sync(handler);
                }
            }

            pub fn stop_sync_text<H: HandlerText + $handler + ?Sized>(&mut self, handler: &mut H) {
                if self.real.sync_bytes_count() == 0 || !has($of, "at a stop in runs") {
                    self.real.stop_sync_text(handler);
                }
            }

            pub fn sync_timeout(&self) -> &T {
                self.real.sync_timeout()
            }

            pub fn sync_bytes_count(&self) -> usize {
                let held = self.real.sync_bytes_count();
                let is_more = has($of, "held") && held > 0
                    || has($of, "held after a stop") && self.turns.is_after_stop
                    || has($of, "held in runs") && self.turns.is_in_runs;
                held + usize::from(is_more)
            }
        }
    };
}

processor!(
    "Processor",
    Processor,
    real::ansi::Processor<T>,
    Handler,
    ()
);
processor!(
    "LongProcessor", LongProcessor, lent::LongProcessor<T>, lent::Handler, Result<(), Refused>
);

impl<T: Timeout + Default> Processor<T> {
    pub fn new() -> Self {
        Processor {
            real: Default::default(),
            turns: Turns::default(),
        }
    }
}

impl<T: Timeout + Default> Default for Processor<T> {
    fn default() -> Self {
        Self::new()
    }
}

impl<T: Timeout> LongProcessor<T> {
    pub fn new(timeout: T) -> Result<Self, NoMemory<T>> {
        let real = lent::LongProcessor::new(timeout)?;
        Ok(LongProcessor {
            real,
            turns: Turns::default(),
        })
    }
}
