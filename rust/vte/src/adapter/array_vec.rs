//! A vector with room for a fixed number of elements, for each crate of rust/. It has the names of
//! the crate `arrayvec`, and no call of it panics.

/// The error of adding an element to a full vector.
#[derive(Debug)]
pub(crate) struct CapacityError;

/// What elements can be.
pub(crate) trait Element: Copy {
    /// Fills slots that hold no element: a constant, so that `new` is one.
    const FILLER: Self;
}

macro_rules! elements {
    ($($number:ty)*) => {
        $(impl Element for $number {
            const FILLER: Self = 0;
        })*
    };
}

elements!(u8 u16 usize);

/// A vector of at most N elements.
#[derive(Clone)]
pub(crate) struct ArrayVec<T, const N: usize> {
    // those from `count` on are whatever they were
    elements: [T; N],
    // at most N
    count: usize,
}

impl<T: Element, const N: usize> From<[T; N]> for ArrayVec<T, N> {
    #[inline(always)]
    fn from(elements: [T; N]) -> Self {
        ArrayVec { elements, count: N }
    }
}

// Each crate needs some of them.
#[allow(dead_code)]
impl<T: Element, const N: usize> ArrayVec<T, N> {
    #[inline(always)]
    pub(crate) const fn new() -> Self {
        ArrayVec {
            elements: [T::FILLER; N],
            count: 0,
        }
    }

    #[inline(always)]
    pub(crate) fn as_slice(&self) -> &[T] {
        // There are never more than N; the limit spares a check that ends elsewhere.
        &self.elements[..self.count.min(N)]
    }

    #[inline(always)]
    pub(crate) fn len(&self) -> usize {
        self.count
    }

    #[inline(always)]
    pub(crate) fn is_empty(&self) -> bool {
        self.count == 0
    }

    #[inline(always)]
    pub(crate) fn is_full(&self) -> bool {
        self.count >= N
    }

    #[inline(always)]
    pub(crate) fn remaining_capacity(&self) -> usize {
        N.saturating_sub(self.count)
    }

    #[inline(always)]
    pub(crate) fn clear(&mut self) {
        self.count = 0;
    }

    #[inline(always)]
    pub(crate) fn truncate(&mut self, count: usize) {
        self.count = self.count.min(count);
    }

    /// Adds an element, if there is room for it.
    #[inline(always)]
    pub(crate) fn push(&mut self, element: T) {
        let _ = self.try_push(element);
    }

    #[inline(always)]
    pub(crate) fn try_push(&mut self, element: T) -> Result<(), CapacityError> {
        *self.elements.get_mut(self.count).ok_or(CapacityError)? = element;
        self.count += 1;
        Ok(())
    }

    #[inline(always)]
    pub(crate) fn pop(&mut self) -> Option<T> {
        let last = self.count.checked_sub(1)?;
        self.count = last;
        self.elements.get(last).copied()
    }

    /// Adds all elements of a slice, or none if there isn't room for all.
    #[inline(always)]
    pub(crate) fn try_extend_from_slice(&mut self, more: &[T]) -> Result<(), CapacityError> {
        let room = self.elements.get_mut(self.count..).ok_or(CapacityError)?;
        room.get_mut(..more.len())
            .ok_or(CapacityError)?
            .copy_from_slice(more);
        self.count += more.len();
        Ok(())
    }
}

#[cfg(test)]
mod tests {
    use super::{ArrayVec, CapacityError, Element};

    impl Element for (u64, char) {
        const FILLER: Self = (0, ' ');
    }

    #[test]
    fn elements_are_added_up_to_the_last() {
        let mut bytes = ArrayVec::<u8, 3>::new();
        assert_eq!((bytes.len(), bytes.as_slice()), (0, [].as_slice()));
        for (count, byte) in [7, 0, 9].into_iter().enumerate() {
            assert_eq!(bytes.len(), count);
            assert!(bytes.try_extend_from_slice(&[byte]).is_ok());
        }
        assert_eq!((bytes.len(), bytes.as_slice()), (3, [7, 0, 9].as_slice()));
        assert!(matches!(
            bytes.try_extend_from_slice(&[1]),
            Err(CapacityError)
        ));
        assert_eq!(bytes.as_slice(), [7, 0, 9]);
    }

    #[test]
    fn a_slice_is_added_whole_or_not_at_all() {
        let mut bytes = ArrayVec::<u8, 4>::new();
        assert!(bytes.try_extend_from_slice(b"abcde").is_err());
        assert_eq!(bytes.as_slice(), b"");
        assert!(bytes.try_extend_from_slice(b"ab").is_ok());
        assert!(bytes.try_extend_from_slice(b"cde").is_err());
        assert_eq!(bytes.as_slice(), b"ab");
        assert!(bytes.try_extend_from_slice(b"cd").is_ok());
        assert_eq!(bytes.as_slice(), b"abcd");
        // there is room for nothing
        assert!(bytes.try_extend_from_slice(b"").is_ok());
        assert_eq!(bytes.as_slice(), b"abcd");
    }

    #[test]
    fn elements_are_taken_away_from_the_end() {
        let mut bytes = ArrayVec::<u8, 4>::from(*b"abcd");
        bytes.truncate(5);
        assert_eq!(bytes.as_slice(), b"abcd");
        bytes.truncate(3);
        assert_eq!((bytes.len(), bytes.as_slice()), (3, b"abc".as_slice()));
        // the freed slot can be used again
        assert!(bytes.try_extend_from_slice(b"xy").is_err());
        assert!(bytes.try_extend_from_slice(b"x").is_ok());
        assert_eq!(bytes.as_slice(), b"abcx");
        bytes.clear();
        assert_eq!((bytes.len(), bytes.as_slice()), (0, b"".as_slice()));
        assert!(bytes.try_extend_from_slice(b"wxyz").is_ok());
        assert_eq!(bytes.as_slice(), b"wxyz");
    }

    #[test]
    fn a_vector_may_have_no_room() {
        let mut nothing = ArrayVec::<u8, 0>::new();
        assert!(nothing.try_extend_from_slice(b"").is_ok());
        assert!(nothing.try_extend_from_slice(b"a").is_err());
        nothing.truncate(0);
        nothing.clear();
        assert_eq!((nothing.len(), nothing.as_slice()), (0, b"".as_slice()));
    }

    #[test]
    fn elements_may_be_of_any_size() {
        let mut words = ArrayVec::<(u64, char), 2>::new();
        assert!(words.try_extend_from_slice(&[(1, 'a'), (2, 'b')]).is_ok());
        assert_eq!(words.as_slice(), [(1, 'a'), (2, 'b')]);
        assert!(!core::mem::needs_drop::<ArrayVec<(u64, char), 2>>());
    }

    #[test]
    fn elements_are_kept_up_to_the_room() {
        let mut numbers = ArrayVec::<u16, 3>::new();
        assert!(numbers.is_empty() && numbers.pop().is_none());
        numbers.push(1);
        assert!(numbers.try_extend_from_slice(&[2, 3, 4]).is_err());
        assert_eq!(numbers.as_slice(), [1]);
        assert!(numbers.try_extend_from_slice(&[2, 3]).is_ok());
        assert!(numbers.is_full() && numbers.remaining_capacity() == 0);
        assert!(numbers.try_push(4).is_err());
        numbers.push(4);
        assert_eq!(numbers.as_slice(), [1, 2, 3]);
        assert_eq!(numbers.pop(), Some(3));
        assert_eq!(numbers.len(), 2);
        numbers.clear();
        assert_eq!(numbers.as_slice(), []);
    }
}
