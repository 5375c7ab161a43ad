//! The events of a stream.

use crate::calls::Kind;
use crate::maker::look_up_classes;
use crate::tape::{fields, Field, Tag, Tape, Tuple, Value};
use pyo3::exceptions::PyTypeError;
use pyo3::prelude::*;
use vte::{Params, Perform, PerformText};

/// A set of types of events.
pub type Kinds = u16;
/// All but `Data`, which stands for `Put`.
pub const ALL: Kinds = (1 << Kind::Data as u16) - 1;
const COMMANDS: Kinds = 1 << Kind::Osc as u16;

pub fn has_kind(kinds: Kinds, kind: Kind) -> bool {
    kinds >> kind as u16 & 1 == 1
}

/// Those that an iterable over classes names, or a class alone.
pub fn kinds_of(kinds: &Bound<'_, PyAny>) -> PyResult<Kinds> {
    let events = &look_up_classes(kinds.py())?[..=Kind::Data as usize];
    let index_of = |kind: &Bound<'_, PyAny>| events.iter().position(|class| class.is_same(kind));
    if let Some(index) = index_of(kinds) {
        return Ok(1 << index);
    }
    kinds.iter()?.try_fold(0, |made, kind| {
        let kind = kind?;
        match index_of(&kind) {
            Some(index) => Ok(made | 1 << index),
            None => Err(PyTypeError::new_err(format!(
                "kinds must be types of events, such as vte.Osc, not {kind:?}"
            ))),
        }
    })
}

/// Records events of some types. It is terminated after those of the types that stop a call, and
/// when something else is to be done: after a command, and, if only commands are wanted, after
/// each event, because what follows may be skipped.
#[derive(Default)]
pub struct Recorder {
    pub tape: Tape,
    kinds: Kinds,
    stops: Kinds,
    // those after which it is terminated
    pauses: Kinds,
    // those that came since it went on
    seen: Kinds,
    // the index of the value that says whether the last command lost data
    truncated: Option<usize>,
    // whether the last call was refused memory, so that the next reports where it stopped
    pub is_refused: bool,
}

impl Recorder {
    pub fn start(&mut self, kinds: Kinds, stops: Kinds) {
        if !(self.is_refused && self.has_stopped()) {
            self.go_on();
        }
        (self.kinds, self.stops) = (kinds, stops);
        self.pauses = [stops | COMMANDS, ALL][usize::from(self.wants_only_commands())];
    }

    pub fn go_on(&mut self) {
        (self.seen, self.truncated) = (0, None);
    }

    pub fn has_stopped(&self) -> bool {
        self.seen & self.stops != 0
    }

    /// Whether nothing but commands is wanted, and nothing else stops a call.
    pub fn wants_only_commands(&self) -> bool {
        self.kinds == COMMANDS && self.stops & !COMMANDS == 0
    }

    /// Notes that the command that ended since `go_on` lost data, if there is one.
    pub fn truncate_command(&mut self) {
        if let Some(index) = self.truncated {
            self.tape.set_flag(index);
        }
    }

    /// Begins an event, if it is wanted.
    #[inline]
    fn begin(&mut self, kind: Kind) -> Option<&mut Tape> {
        self.seen |= 1 << kind as u16;
        self.tape.end_run();
        has_kind(self.kinds, kind).then_some(&mut self.tape)
    }

    #[inline]
    fn add(&mut self, kind: Kind, number: u8) {
        if let Some(tape) = self.begin(kind) {
            tape.add(Value::with_kind(Tag::Member, kind, number.into()));
        }
    }
}

fields! {
    &[&[u8]]: pieces => Tuple(pieces.iter().copied());
}

impl Perform for Recorder {
    fn execute(&mut self, byte: u8) {
        self.add(Kind::Execute, byte);
    }

    fn put(&mut self, byte: u8) {
        self.add(Kind::Put, byte);
    }

    fn unhook(&mut self) {
        if let Some(tape) = self.begin(Kind::Unhook) {
            tape.begin(Kind::Unhook);
        }
    }

    fn hook(&mut self, groups: &Params, intermediates: &[u8], ignore: bool, final_byte: char) {
        if let Some(tape) = self.begin(Kind::Hook) {
            let head = (intermediates, ignore, final_byte);
            tape.add_head(Kind::Hook, groups.len(), head)
                .add_numbers(groups);
        }
    }

    fn csi_dispatch(
        &mut self,
        groups: &Params,
        intermediates: &[u8],
        ignore: bool,
        final_byte: char,
    ) {
        if let Some(tape) = self.begin(Kind::Csi) {
            let head = (intermediates, ignore, final_byte);
            tape.add_head(Kind::Csi, groups.len(), head)
                .add_numbers(groups);
        }
    }

    fn esc_dispatch(&mut self, intermediates: &[u8], ignore: bool, final_byte: u8) {
        if let Some(tape) = self.begin(Kind::Esc) {
            tape.add_head(
                Kind::Esc,
                0,
                (intermediates, ignore, char::from(final_byte)),
            );
        }
    }

    fn osc_dispatch(&mut self, pieces: &[&[u8]], bell_terminated: bool) {
        if let Some(tape) = self.begin(Kind::Osc) {
            tape.begin(Kind::Osc)
                .add_field(pieces)
                .add_field(bell_terminated)
                .add_field(false);
            self.truncated = Some(tape.count() - 1);
        }
    }

    fn terminated(&self) -> bool {
        self.seen & self.pauses != 0
    }
}

impl PerformText for Recorder {
    fn print_text(&mut self, text: &str) {
        match has_kind(self.kinds, Kind::Text) {
            true => self.tape.add_run(Kind::Text, text.as_bytes()),
            false => self.tape.end_run(),
        }
    }

    fn put_slice(&mut self, data: &[u8]) {
        match has_kind(self.kinds, Kind::Data) {
            true => self.tape.add_run(Kind::Data, data),
            false => data.iter().for_each(|byte| self.put(*byte)),
        }
    }
}
