//! Objects, made of what is recorded. Those that come often are made once.

use crate::calls::{Kind, NAMES};
use crate::head::Head;
use crate::objects::{
    make_ascii_text, make_bytes, make_integer, make_short_text, make_substring, make_text,
    make_tuple, Class, MaybeObject, ShortText,
};
use crate::tape::{Tag, Value, NUMBERS_PER_VALUE, NUMBER_BITS, NUMBER_START};
use pyo3::prelude::*;
use pyo3::sync::{GILOnceCell, GILProtected};
use std::cell::Cell;

/// The classes of objects, by their kinds.
pub fn look_up_classes(py: Python<'_>) -> PyResult<&'static [Class]> {
    static CLASSES: GILOnceCell<Vec<Class>> = GILOnceCell::new();
    let classes = CLASSES.get_or_try_init(py, || {
        let events = py.import_bound("vte._events")?;
        let calls = py.import_bound("vte.calls")?;
        let class = |name| events.getattr(name).or_else(|_| calls.getattr(name));
        let classes = NAMES.iter().map(|name| Class::new(class(*name)?));
        classes.collect::<PyResult<_>>()
    });
    classes.map(Vec::as_slice)
}

/// The two objects that were made last of those whose keys lead to this slot. A key has the values
/// of an object, then zeros.
struct CacheSlot<const N: usize>([([u64; N], Option<PyObject>); 2]);

impl<const N: usize> CacheSlot<N> {
    const NONE: Self = CacheSlot([([0; N], None), ([0; N], None)]);

    #[inline(always)]
    fn get(&self, py: Python<'_>, key: &[u64; N]) -> Option<PyObject> {
        let differs = |other: &[u64; N]| key.iter().zip(other).fold(0, |all, (a, b)| all | (a ^ b));
        let (_, object) = self.0.iter().find(|(other, _)| differs(other) == 0)?;
        object.as_ref().map(|object| object.clone_ref(py))
    }

    #[inline]
    fn keep(&mut self, py: Python<'_>, key: [u64; N], object: &PyObject) {
        self.0.swap(0, 1);
        self.0[0] = (key, Some(object.clone_ref(py)));
    }
}

/// The slots for keys of one size.
struct CacheTable<const N: usize> {
    /// All of them, or none if there is no memory.
    slots: Vec<CacheSlot<N>>,
    /// The one of all keys if there are no others.
    last: CacheSlot<N>,
}

impl<const N: usize> CacheTable<N> {
    /// The bits of a slot's number, which decide how many there are.
    const COUNT_BITS: u32 = 9;
    const NONE: Self = CacheTable {
        slots: Vec::new(),
        last: CacheSlot::NONE,
    };

    fn fill(&mut self) {
        let slots = &mut self.slots;
        if slots.is_empty() && slots.try_reserve_exact(1 << Self::COUNT_BITS).is_ok() {
            slots.resize_with(1 << Self::COUNT_BITS, || CacheSlot::NONE);
        }
    }

    /// The slot of a key.
    #[inline(always)]
    fn find_slot(&mut self, key: &[u64; N]) -> &mut CacheSlot<N> {
        let mix = |hash: u64, word: &u64| (hash.rotate_left(5) ^ word).wrapping_mul(FACTOR);
        let index = key.iter().fold(0, mix) >> (u64::BITS - Self::COUNT_BITS);
        self.slots.get_mut(index as usize).unwrap_or(&mut self.last)
    }
}

/// How many bytes of content a run has at most that is cached: those of a word of a key.
const MAX_CACHED_LENGTH: i64 = u64::BITS as i64 / 8;
/// What a key's hash is multiplied by at each word, so that all words decide the highest bits: the
/// odd number next to 2^64 / π.
const FACTOR: u64 = 0x517C_C1B7_2722_0A95;
/// The sizes of keys: few objects have more than three values.
const SMALL_KEY_SIZE: usize = 3;
const LARGE_KEY_SIZE: usize = 6;

/// Objects that were made, since programs send few different ones.
pub struct ObjectCache {
    small: CacheTable<SMALL_KEY_SIZE>,
    large: CacheTable<LARGE_KEY_SIZE>,
}

/// The cache of all tapes. It is taken out while objects are made.
static OBJECT_CACHE: GILProtected<Cell<Option<ObjectCache>>> = GILProtected::new(Cell::new(None));

impl ObjectCache {
    pub fn take(py: Python<'_>) -> Self {
        let mut cache = OBJECT_CACHE.get(py).take().unwrap_or(ObjectCache {
            small: CacheTable::NONE,
            large: CacheTable::NONE,
        });
        cache.small.fill();
        cache.large.fill();
        cache
    }

    pub fn put_back(self, py: Python<'_>) {
        OBJECT_CACHE.get(py).set(Some(self));
    }
}

/// Makes objects of values.
pub struct Maker<'a, 'py> {
    py: Python<'py>,
    classes: &'a [Class],
    values: &'a [Value],
    content: &'a [u8],
    /// An object of all content, of which texts are parts, if that is faster.
    whole: MaybeObject,
    /// The length of all content.
    length: usize,
}

impl<'a, 'py> Maker<'a, 'py> {
    pub fn new(py: Python<'py>, values: &'a [Value], content: &'a [u8]) -> PyResult<Self> {
        let classes = look_up_classes(py)?;
        let (whole, length) = (make_ascii_text(py, content), content.len());
        Ok(Maker {
            py,
            classes,
            values,
            content,
            whole,
            length,
        })
    }

    /// How many values and bytes of content are left.
    pub fn count_left(&self) -> (usize, usize) {
        (self.values.len(), self.content.len())
    }

    /// The next object, or none at the end. If it can't be made, it stays.
    #[inline(always)]
    pub fn make(&mut self, cache: &mut ObjectCache) -> Option<MaybeObject> {
        let (values, content) = (self.values, self.content);
        let first = *values.first()?;
        let made = if first.has_tag(Tag::Run) {
            self.find_or_make_run(first, cache)
        } else {
            self.find_or_make_object(cache)
        };
        if made.is_none() {
            (self.values, self.content) = (values, content);
        }
        Some(made)
    }

    /// A text or data.
    #[inline(always)]
    fn find_or_make_run(&mut self, first: Value, cache: &mut ObjectCache) -> MaybeObject {
        let (py, (kind, length)) = (self.py, first.kind_and_field());
        self.values = &self.values[1..];
        if length > MAX_CACHED_LENGTH {
            return self.make_run(kind, length as usize);
        }
        let bytes = self.content[..length as usize].iter();
        let content = bytes.fold(0, |all, byte| all << 8 | u64::from(*byte));
        let key = [first.0 as u64, content, 0];
        let slot = cache.small.find_slot(&key);
        if let Some(object) = slot.get(py, &key) {
            self.take_content(length as usize);
            return Some(object);
        }
        let object = self.make_run(kind, length as usize)?;
        slot.keep(py, key, &object);
        Some(object)
    }

    /// An object of the values up to the next first one.
    #[inline(always)]
    fn find_or_make_object(&mut self, cache: &mut ObjectCache) -> MaybeObject {
        let others = self.values[1..]
            .iter()
            .take_while(|value| !value.is_first());
        let value = |index: usize| self.values[index].0 as u64;
        let count = 1 + others.count();
        let small = match count {
            1 => [value(0), 0, 0],
            2 => [value(0), value(1), 0],
            SMALL_KEY_SIZE => [value(0), value(1), value(2)],
            _ if count <= LARGE_KEY_SIZE => {
                let mut key = [0; LARGE_KEY_SIZE];
                for (index, word) in key[..count].iter_mut().enumerate() {
                    *word = value(index);
                }
                return self.find_or_make(key, count, &mut cache.large);
            }
            _ => return self.make_next(),
        };
        self.find_or_make(small, count, &mut cache.small)
    }

    /// The object of a key, which is made of `count` values.
    #[inline(always)]
    fn find_or_make<const N: usize>(
        &mut self,
        key: [u64; N],
        count: usize,
        table: &mut CacheTable<N>,
    ) -> MaybeObject {
        let slot = table.find_slot(&key);
        if let Some(object) = slot.get(self.py, &key) {
            self.values = &self.values[count..];
            return Some(object);
        }
        let before = self.content.len();
        let object = self.make_next()?;
        // other content makes other objects of these values
        if self.content.len() == before {
            slot.keep(self.py, key, &object);
        }
        Some(object)
    }

    fn make_next(&mut self) -> MaybeObject {
        let py = self.py;
        let value = self.values[0];
        self.values = &self.values[1..];
        let ((tag, number), (kind, field)) = (value.tag_and_number(), value.kind_and_field());
        match tag {
            Tag::Nothing => Some(py.None()),
            Tag::Flag => Some((number != 0).into_py(py)),
            Tag::Letter => self.make_letter(char::from(number as u8)),
            Tag::Text => make_text(py, self.take_content(number as usize)),
            Tag::Data => make_bytes(py, self.take_content(number as usize)),
            Tag::Tuple => make_tuple(py, number as usize, |_| self.make_next()),
            Tag::Sequence => self.make_sequence(kind, Head::unpack(field)),
            Tag::Object => self.classes[kind].make(py, |_| self.make_next()),
            Tag::Member => self.classes[kind].make(py, |_| make_integer(py, field)),
            Tag::Run => self.make_run(kind, field as usize),
            // those of a sequence are read with it
            Tag::Number | Tag::Numbers => make_integer(py, number),
        }
    }

    fn make_letter(&self, letter: char) -> MaybeObject {
        make_text(self.py, letter.encode_utf8(&mut [0; 4]).as_bytes())
    }

    #[inline(always)]
    fn make_run(&mut self, kind: usize, length: usize) -> MaybeObject {
        let (py, class, all) = (self.py, &self.classes[kind], self.content);
        let content = self.take_content(length);
        if kind == Kind::Data as usize {
            return class.make(py, |_| make_bytes(py, content));
        }
        if let Some(whole) = &self.whole {
            let start = self.length - all.len();
            return class.make(py, |_| make_substring(py, whole, start, start + length));
        }
        match ShortText::from_bytes(content) {
            Some(short) => class.make(py, |_| make_short_text(py, &short)),
            None => class.make(py, |_| make_text(py, content)),
        }
    }

    fn make_sequence(&mut self, kind: usize, head: Head) -> MaybeObject {
        let (numbers, rest) = self.values.split_at(head.value_count());
        self.values = rest;
        let (py, has_groups) = (self.py, kind != Kind::Esc as usize);
        self.classes[kind].make(py, |index| match (index, has_groups) {
            (0, true) => make_groups(py, numbers, head.count),
            (1, true) | (0, false) => {
                make_bytes(py, &head.intermediates[..head.intermediate_count])
            }
            (2, true) | (1, false) => Some(head.ignore.into_py(py)),
            _ => self.make_letter(head.final_byte),
        })
    }

    fn take_content(&mut self, length: usize) -> &'a [u8] {
        let (own, rest) = self.content.split_at(length);
        self.content = rest;
        own
    }
}

/// The tuples of `count` numbers.
fn make_groups(py: Python<'_>, values: &[Value], count: usize) -> MaybeObject {
    // each number, and whether `:` is before it
    let number = |index: usize| {
        let first = NUMBER_START + NUMBER_BITS * (index % NUMBERS_PER_VALUE) as u32;
        let bits = values[index / NUMBERS_PER_VALUE].0 >> first;
        (bits >> 1 & 0xFFFF, bits & 1 == 1)
    };
    let ends = |index: &usize| *index == count || !number(*index).1;
    let (groups, mut next) = ((0..count).filter(ends).count(), 0);
    make_tuple(py, groups, |_| {
        let start = next;
        next = (start + 1..=count).find(ends).unwrap_or(count);
        make_tuple(py, next - start, |index| {
            make_integer(py, number(start + index).0)
        })
    })
}
