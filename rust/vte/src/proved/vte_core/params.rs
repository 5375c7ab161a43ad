// Written by tools/erase from crates/vte_core/src/params.rt: edit that one.
//! The parameters of a control sequence.

use crate::adapter::array_vec::ArrayVec;
use core::fmt;
use core::iter::FusedIterator;

/// How many numbers of a sequence are kept.
pub(crate) const MAX_NUMBERS: usize = 32;

/// The numbers of a sequence, in groups that are never empty.
#[derive(Clone)]
#[doc = include_str!("../../docs/params.md")]
pub struct Params {
    /// All numbers in a row.
    numbers: ArrayVec<u16, MAX_NUMBERS>,
    /// How many of them are in each group. Empty until a number joins a group, since in most
    /// sequences none does.
    lengths: ArrayVec<u8, MAX_NUMBERS>,
}

/// An iterator over the groups of a [`Params`], each a slice of its numbers.
#[derive(Clone, Debug)]
pub struct ParamsIter<'a> {
    numbers: &'a [u16],
    lengths: &'a [u8],
}

impl Params {
    /// Creates parameters without numbers.
    pub(crate) const fn new() -> Self {
        Params {
            numbers: ArrayVec::new(),
            lengths: ArrayVec::new(),
        }
    }

    /// Removes all numbers.
    pub(crate) fn clear(&mut self) {
        self.numbers.clear();
        self.lengths.clear();
    }

    /// Returns whether there is no room for another number.
    #[inline]
    pub(crate) fn is_full(&self) -> bool {
        self.numbers.is_full()
    }

    /// Adds a number: to the last group if `joined`, or else as a group of its own.
    #[inline(always)]
    pub(crate) fn push(&mut self, joined: bool, value: u16) {
        if joined {
            self.push_joined(value);
        } else if self.lengths.is_empty() {
            self.numbers.push(value);
        } else {
            self.numbers.push(value);
            self.lengths.push(1);
        }
    }

    /// Adds a number to the last group, or to a new one if there is none. Few numbers join a group.
    #[inline(never)]
    fn push_joined(&mut self, value: u16) {
        fill_lengths(&mut self.lengths, self.numbers.len());
        let length = self.lengths.pop().unwrap_or(0);
        self.numbers.push(value);
        self.lengths.push(length + 1);
    }

    /// Returns how many numbers are in each group, or nothing if one is in each, and all numbers in
    /// a row.
    #[cfg(feature = "__own")]
    pub(crate) fn raw_parts(&self) -> (&[u8], &[u16]) {
        (self.lengths.as_slice(), self.numbers.as_slice())
    }

    /// Returns the parameters with these numbers in groups of these lengths, or none if the lengths
    /// don't cover all numbers.
    #[cfg(feature = "__own")]
    pub(crate) fn from_raw_parts(
        lengths: ArrayVec<u8, MAX_NUMBERS>,
        numbers: ArrayVec<u16, MAX_NUMBERS>,
    ) -> Self {
        if are_flat_groups(lengths.as_slice(), numbers.as_slice()) {
            Params { numbers, lengths }
        } else {
            Params::new()
        }
    }

    /// Returns how many numbers there are, including those joined by `:`.
    pub fn len(&self) -> usize {
        self.numbers.len()
    }

    /// Returns whether there are no numbers.
    pub fn is_empty(&self) -> bool {
        self.numbers.is_empty()
    }

    /// Returns an iterator over the groups. Numbers joined by `:` are one group.
    #[inline]
    pub fn iter(&self) -> ParamsIter<'_> {
        ParamsIter {
            numbers: self.numbers.as_slice(),
            lengths: self.lengths.as_slice(),
        }
    }
}

/// Stores the lengths of this many numbers, if none are stored: each is a group of its own.
fn fill_lengths(lengths: &mut ArrayVec<u8, MAX_NUMBERS>, count: usize) {
    if lengths.is_empty() {
        for _ in 0..count {
            lengths.push(1);
        }
    }
}

/// Returns whether these are the lengths of groups with these numbers.
#[cfg(feature = "__own")]
fn are_flat_groups(lengths: &[u8], numbers: &[u16]) -> bool {
    if lengths.is_empty() {
        return true;
    }
    let mut left = numbers.len();
    for length in lengths {
        let length = usize::from(*length);
        if length == 0 || left < length {
            return false;
        }
        left -= length;
    }
    left == 0
}

impl ParamsIter<'_> {
    /// Returns how many groups are left.
    fn count_groups(&self) -> usize {
        if self.lengths.is_empty() {
            self.numbers.len()
        } else {
            self.lengths.len()
        }
    }
}

impl Default for Params {
    fn default() -> Self {
        Params::new()
    }
}

impl<'a> IntoIterator for &'a Params {
    type Item = &'a [u16];

    type IntoIter = ParamsIter<'a>;

    #[inline]
    fn into_iter(self) -> ParamsIter<'a> {
        self.iter()
    }
}

impl<'a> Iterator for ParamsIter<'a> {
    type Item = &'a [u16];

    #[inline(always)]
    fn next(&mut self) -> Option<&'a [u16]> {
        // Each number is a group of its own.
        if self.lengths.is_empty() {
            if self.numbers.is_empty() {
                return None;
            }
            let (group, numbers) = self.numbers.split_at(1);
            self.numbers = numbers;
            return Some(group);
        }
        let (length, lengths) = self.lengths.split_first()?;
        let (group, numbers) = self.numbers.split_at(usize::from(*length));
        self.lengths = lengths;
        self.numbers = numbers;
        Some(group)
    }

    fn size_hint(&self) -> (usize, Option<usize>) {
        let groups = self.count_groups();
        (groups, Some(groups))
    }
}

impl<'a> FusedIterator for ParamsIter<'a> {}

/// The numbers of one group, with `:` between them.
struct Group<'a>(&'a [u16]);

impl fmt::Display for Group<'_> {
    fn fmt(&self, f: &mut fmt::Formatter<'_>) -> fmt::Result {
        if let [first, rest @ ..] = self.0 {
            write!(f, "{first}")?;
            for number in rest {
                write!(f, ":{number}")?;
            }
        }
        Ok(())
    }
}

/// Writes groups with `;` between them.
fn write_groups(mut groups: ParamsIter<'_>, f: &mut fmt::Formatter<'_>) -> fmt::Result {
    if let Some(first) = groups.next() {
        write!(f, "{}", Group(first))?;
        for group in groups {
            write!(f, ";{}", Group(group))?;
        }
    }
    Ok(())
}

/// The groups in brackets, with `;` between them and `:` between the numbers of a group.
impl fmt::Debug for Params {
    fn fmt(&self, f: &mut fmt::Formatter<'_>) -> fmt::Result {
        write!(f, "[")?;
        write_groups(self.iter(), f)?;
        write!(f, "]")
    }
}
