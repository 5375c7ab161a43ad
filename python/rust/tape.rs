//! Events and calls as they are recorded, before objects are made of them. This needs no object and
//! so not the interpreter's lock, and if memory is refused to an object, those that follow are
//! still there.
//!
//! An object is recorded as a value, and those of its fields follow. The bits of a value are:
//!
//! ```text
//!  63                  13 12         5    4     3     0
//! +----------------------+------------+-------+--------+
//! |        field         |    kind    | first |  tag   |   Sequence, Object, Member, Run
//! +----------------------+------------+-------+--------+
//! |              number               | first |  tag   |   the other tags
//! +-----------------------------------+-------+--------+
//! ```
//!
//! `first` is 1 if an object begins that is in no other. The content of texts and data is stored
//! beside the values, in the same order.

use crate::calls::Kind;
use crate::head::Head;
use crate::maker::{Maker, ObjectCache};
use crate::objects::{fetch_error_unless, make_list, make_memory_error, MaybeObject};
use pyo3::prelude::*;
use vte::{Params, Refused};

/// Makes an enumeration, and a list of its members by their numbers.
macro_rules! numbered {
    ($(#[$about:meta])* $name:ident, $list:ident: $($(#[$of:meta])* $member:ident,)+) => {
        $(#[$about])*
        #[derive(Clone, Copy, PartialEq, Eq)]
        pub enum $name {
            $($(#[$of])* $member,)+
        }

        const $list: &[$name] = &[$($name::$member,)+];
    };
}

numbered! {
    /// What a value is.
    Tag, TAGS:
    Nothing,
    Flag,
    Number,
    Letter,
    /// How many fields follow.
    Tuple,
    /// A packed `Head`. The numbers of the sequence follow.
    Sequence,
    /// `NUMBERS_PER_VALUE` of a sequence, of `NUMBER_BITS` each, of which the last says whether `:`
    /// is before it.
    Numbers,
    /// An object, whose fields follow.
    Object,
    /// An object, and the number that is its only field.
    Member,
    /// The length of the content.
    Text,
    Data,
    /// An object, and the length of the content that is its only field.
    Run,
}

const TAG: i64 = 15;
const FIRST: i64 = 16;
/// The bit at which the number begins.
pub const NUMBER_START: u32 = 5;
const KIND_BITS: u32 = 8;

pub const NUMBERS_PER_VALUE: usize = 3;
pub const NUMBER_BITS: u32 = 17;

/// One value, with the bits above.
#[derive(Clone, Copy, Default, PartialEq)]
pub struct Value(pub i64);

impl Value {
    #[inline]
    pub fn new(tag: Tag, number: i64) -> Self {
        Value(number << NUMBER_START | tag as i64)
    }

    #[inline]
    pub fn with_kind(tag: Tag, kind: Kind, field: i64) -> Self {
        Value::new(tag, field << KIND_BITS | kind as i64)
    }

    #[inline]
    pub fn has_tag(self, tag: Tag) -> bool {
        self.0 & TAG == tag as i64
    }

    #[inline]
    pub fn tag_and_number(self) -> (Tag, i64) {
        (TAGS[(self.0 & TAG) as usize], self.0 >> NUMBER_START)
    }

    #[inline]
    pub fn is_first(self) -> bool {
        self.0 & FIRST != 0
    }

    /// Adds to the field.
    #[inline]
    fn lengthen(&mut self, more: i64) {
        self.0 += more << KIND_BITS << NUMBER_START;
    }

    #[inline]
    pub fn kind_and_field(self) -> (usize, i64) {
        let number = self.0 >> NUMBER_START;
        let kind = number & ((1 << KIND_BITS) - 1);
        (kind as usize, number >> KIND_BITS)
    }
}

/// What can be in a field of an event or a call.
pub trait Field {
    fn record(self, tape: &mut Tape);
}

/// Says for a type of which fields it is made.
macro_rules! fields {
    ($($type:ty: $field:ident => $($value:expr),+;)+) => {
        $(impl Field for $type {
            #[inline]
            fn record(self, tape: &mut Tape) {
                let $field = self;
                tape$(.add_field($value))+;
            }
        })+
    };
}
pub(crate) use fields;

fields! {
    bool: flag => Value::new(Tag::Flag, flag.into());
    char: letter => Value::new(Tag::Letter, u32::from(letter).into());
    // A number of the stream, or a position in what was sent.
    usize: number => Value::new(Tag::Number, number as i64);
    &str: text => Content(text.as_bytes()), Value::new(Tag::Text, text.len() as i64);
    &[u8]: data => Content(data), Value::new(Tag::Data, data.len() as i64);
}

impl Field for Value {
    #[inline]
    fn record(self, tape: &mut Tape) {
        extend(&mut tape.values, &[self], &mut tape.is_refused);
    }
}

/// What a text or data has.
struct Content<'a>(&'a [u8]);

impl Field for Content<'_> {
    #[inline]
    fn record(self, tape: &mut Tape) {
        extend(&mut tape.content, self.0, &mut tape.is_refused);
    }
}

/// Adds to a vector, or says that memory is refused.
#[inline]
fn extend<T: Copy>(vector: &mut Vec<T>, more: &[T], is_refused: &mut bool) {
    if more.len() <= vector.capacity() - vector.len() {
        vector.extend_from_slice(more);
    } else {
        grow(vector, more, is_refused);
    }
}

#[cold]
fn grow<T: Copy>(vector: &mut Vec<T>, more: &[T], is_refused: &mut bool) {
    // What was refused once isn't asked for again.
    if *is_refused || vector.try_reserve(more.len()).is_err() {
        *is_refused = true;
    } else {
        vector.extend_from_slice(more);
    }
}

/// A tuple of fields, which knows how many there are.
pub struct Tuple<I>(pub I);

impl<I: Iterator> Field for Tuple<I>
where
    I::Item: Field,
{
    #[inline]
    fn record(self, tape: &mut Tape) {
        tape.add_field(Value::new(Tag::Tuple, self.0.size_hint().0 as i64));
        self.0.for_each(|field| field.record(tape));
    }
}

impl<T: Field> Field for Option<T> {
    fn record(self, tape: &mut Tape) {
        match self {
            Some(field) => field.record(tape),
            None => Value::new(Tag::Nothing, 0).record(tape),
        }
    }
}

/// Numbers of a sequence that are to be one value, and how many bits they have.
#[derive(Default)]
struct PackedNumbers {
    numbers: i64,
    bits: u32,
}

/// Objects that are recorded, one after another.
#[derive(Default)]
pub struct Tape {
    values: Vec<Value>,
    content: Vec<u8>,
    /// Whether the last value is a run that may go on.
    is_open: bool,
    /// Whether memory was refused, so that something is missing.
    is_refused: bool,
    made: Vec<PyObject>,
}

impl Tape {
    /// The most values or bytes for each byte that is read, and for what was open before. More are
    /// added by OSC 104 and by REP alone.
    const MAX_PER_BYTE: usize = 3;
    const MAX_OPEN: usize = 128;

    /// How many values are recorded.
    pub fn count(&self) -> usize {
        self.values.len()
    }

    /// How much is recorded.
    pub fn size(&self) -> usize {
        self.values.len() + self.content.len()
    }

    /// Takes memory for what bytes add, and the command that they may end.
    pub fn reserve(&mut self, bytes: usize, command: usize) -> Result<(), Refused> {
        let added = Self::MAX_PER_BYTE * bytes + Self::MAX_OPEN;
        let values = self.values.try_reserve(added);
        values
            .and_then(|()| self.content.try_reserve(added + command))
            .map_err(|_| Refused { read: 0 })
    }

    /// Begins an object. Its fields are to follow.
    #[inline]
    pub fn begin(&mut self, kind: Kind) -> &mut Self {
        self.add(Value::with_kind(Tag::Object, kind, 0))
    }

    /// Adds an object, or its first value.
    #[inline]
    pub fn add(&mut self, first: Value) -> &mut Self {
        self.is_open = false;
        self.add_field(Value(first.0 | FIRST))
    }

    /// Adds a sequence, but not its numbers.
    #[inline]
    pub fn add_head(&mut self, kind: Kind, count: usize, rest: (&[u8], bool, char)) -> &mut Self {
        let head = Head::new(count, rest.0, rest.1, rest.2);
        self.add(Value::with_kind(Tag::Sequence, kind, head.pack()))
    }

    /// Adds the numbers of a sequence.
    #[inline]
    pub fn add_numbers(&mut self, params: &Params) {
        let mut packed = PackedNumbers::default();
        for group in params {
            packed = self.add_group(group, packed);
        }
        if packed.bits > 0 {
            self.add_field(Value::new(Tag::Numbers, packed.numbers));
        }
    }

    /// Adds the numbers of a group to those that are packed. Returns what doesn't fill a value.
    #[inline]
    fn add_group(&mut self, group: &[u16], mut packed: PackedNumbers) -> PackedNumbers {
        let mut is_joined = 0;
        for number in group {
            packed.numbers |= (i64::from(*number) << 1 | is_joined) << packed.bits;
            (packed.bits, is_joined) = (packed.bits + NUMBER_BITS, 1);
            if packed.bits == NUMBER_BITS * NUMBERS_PER_VALUE as u32 {
                self.add_field(Value::new(Tag::Numbers, packed.numbers));
                packed = PackedNumbers::default();
            }
        }
        packed
    }

    /// Adds a field.
    #[inline]
    pub fn add_field(&mut self, field: impl Field) -> &mut Self {
        field.record(self);
        self
    }

    /// Adds to the text or data that is open, or begins one.
    #[inline]
    pub fn add_run(&mut self, kind: Kind, run: &[u8]) {
        match self.values.last_mut() {
            Some(last) if self.is_open => last.lengthen(run.len() as i64),
            _ => {
                self.add(Value::with_kind(Tag::Run, kind, run.len() as i64));
                self.is_open = true;
            }
        }
        self.add_field(Content(run));
    }

    /// Ends a text or data.
    #[inline]
    pub fn end_run(&mut self) {
        self.is_open = false;
    }

    /// Changes the value at an index to true.
    pub fn set_flag(&mut self, index: usize) {
        self.values[index] = Value::new(Tag::Flag, 1);
    }

    /// Whether `max_count` values are recorded, or memory was refused to one.
    pub fn is_full(&self, max_count: usize) -> bool {
        self.values.len() >= max_count || self.is_refused
    }

    /// Returns whether there was no memory to record something. If so, all that wasn't made is
    /// dropped, and the next call returns false.
    pub fn take_loss(&mut self) -> bool {
        let is_refused = self.is_refused;
        if is_refused {
            let made = std::mem::take(&mut self.made);
            *self = Tape {
                made,
                ..Tape::default()
            };
        }
        is_refused
    }

    /// Makes the objects, but not the last if it may go on. If memory is refused, now or to what
    /// was to be recorded, those that aren't made stay.
    #[inline(never)]
    pub fn make(&mut self, py: Python<'_>, ends: bool) -> PyResult<()> {
        if self.is_refused {
            return Err(make_memory_error(py));
        }
        let reserved = self.made.try_reserve(self.values.len());
        reserved.map_err(|_| make_memory_error(py))?;
        let mut cache = ObjectCache::take(py);
        let end = self.values.len() - usize::from(self.is_open && !ends);
        let mut maker = Maker::new(py, &self.values[..end], &self.content)?;
        let mut done = Ok(());
        while let Some(made) = maker.make(&mut cache) {
            match made {
                Some(object) => self.made.push(object),
                None => {
                    done = Err(PyErr::fetch(py));
                    break;
                }
            }
        }
        let (left, rest) = maker.count_left();
        cache.put_back(py);
        self.values.drain(..end - left);
        self.content.drain(..self.content.len() - rest);
        done
    }

    /// A list of what was made. If memory is refused, this stays.
    pub fn take_list(&mut self, py: Python<'_>) -> MaybeObject {
        let count = self.made.len();
        let list = make_list(py, &mut self.made, count)?;
        // The memory of few objects is kept.
        if self.made.capacity() > 1 << 12 {
            self.made = Vec::new();
        }
        Some(list)
    }

    /// A list of as many of the first that were made as there is memory for. The others stay.
    pub fn take_shorter_list(&mut self, py: Python<'_>) -> Option<PyObject> {
        let mut count = self.made.len();
        while count > 0 {
            match fetch_error_unless(py, make_list(py, &mut self.made, count)) {
                Ok(list) => return Some(list),
                Err(_) => count /= 2,
            }
        }
        None
    }
}
