//! What stable Rust lacks: vectors and texts whose methods return an error if memory is refused.
//! What the oldest rustc lacks: `first_chunk`. What the crate `memchr` has, without that crate.
#[cfg(feature = "ansi")]
pub(crate) use memchr::memchr;
#[cfg(feature = "ansi")]
pub(crate) use memory::String;
#[cfg(any(feature = "std", feature = "ansi"))]
pub(crate) use memory::{AllocError, Vec};

/// The first N bytes, which `first_chunk` returns as a method since Rust 1.77.
#[inline(always)]
pub(crate) fn first_chunk<const N: usize>(bytes: &[u8]) -> Option<&[u8; N]> {
    bytes.get(..N)?.try_into().ok()
}

/// The position of the first such byte. Compilers make vector instructions of the test of a block.
#[cfg(not(feature = "ansi"))]
pub(crate) fn memchr(needle: u8, haystack: &[u8]) -> Option<usize> {
    const BLOCK: usize = 32;
    let is_free = |block: &&[u8]| {
        block
            .iter()
            .fold(true, |free, byte| free & (*byte != needle))
    };
    let skipped = haystack.chunks_exact(BLOCK).take_while(is_free).count() * BLOCK;
    let found = haystack[skipped..]
        .iter()
        .position(|byte| *byte == needle)?;
    Some(skipped + found)
}

#[cfg(any(feature = "std", feature = "ansi"))]
mod memory {
    use core::ops::Range;

    /// Memory was refused.
    pub(crate) struct AllocError;

    /// A vector whose methods return an error if memory is refused.
    ///
    /// It has no `Deref`: a method that is missing here must be an error, and not the method of a
    /// trait that has its name.
    pub(crate) struct Vec<T>(alloc::vec::Vec<T>);

    /// A copy has as much memory, and the program ends if there is none.
    impl<T: Copy> Clone for Vec<T> {
        fn clone(&self) -> Self {
            let mut copy = alloc::vec::Vec::with_capacity(self.0.capacity());
            copy.extend_from_slice(&self.0);
            Vec(copy)
        }
    }

    #[cfg_attr(not(feature = "ansi"), allow(dead_code))]
    impl<T: Copy> Vec<T> {
        pub(crate) const fn new() -> Self {
            Vec(alloc::vec::Vec::new())
        }

        pub(crate) fn with_capacity(count: usize) -> Result<Self, AllocError> {
            let mut made = alloc::vec::Vec::new();
            made.try_reserve_exact(count).map_err(|_| AllocError)?;
            Ok(Vec(made))
        }

        pub(crate) fn reserve(&mut self, more: usize) -> Result<(), AllocError> {
            self.0.try_reserve(more).map_err(|_| AllocError)
        }

        pub(crate) fn extend_from_slice(&mut self, more: &[T]) -> Result<(), AllocError> {
            self.reserve(more.len())?;
            self.0.extend_from_slice(more);
            Ok(())
        }

        pub(crate) fn as_slice(&self) -> &[T] {
            self.0.as_slice()
        }

        pub(crate) fn len(&self) -> usize {
            self.0.len()
        }

        pub(crate) fn copy_within(&mut self, from: Range<usize>, to: usize) {
            self.0.copy_within(from, to);
        }

        pub(crate) fn truncate(&mut self, count: usize) {
            self.0.truncate(count);
        }

        pub(crate) fn clear(&mut self) {
            self.0.clear();
        }

        pub(crate) fn shrink_to_fit(&mut self) {
            self.0.shrink_to_fit();
        }
    }

    /// A text whose methods return an error if memory is refused.
    #[cfg(feature = "ansi")]
    pub(crate) struct String(alloc::string::String);

    #[cfg(feature = "ansi")]
    impl Clone for String {
        fn clone(&self) -> Self {
            let mut copy = alloc::string::String::with_capacity(self.0.capacity());
            copy.push_str(&self.0);
            String(copy)
        }
    }

    #[cfg(feature = "ansi")]
    impl String {
        #[inline]
        pub(crate) fn new() -> Self {
            String(alloc::string::String::new())
        }

        #[inline]
        pub(crate) fn reserve(&mut self, more: usize) -> Result<(), AllocError> {
            self.0.try_reserve(more).map_err(|_| AllocError)
        }

        #[inline]
        pub(crate) fn push(&mut self, c: char) -> Result<(), AllocError> {
            self.reserve(c.len_utf8())?;
            self.0.push(c);
            Ok(())
        }

        #[inline]
        pub(crate) fn push_str(&mut self, more: &str) -> Result<(), AllocError> {
            self.reserve(more.len())?;
            self.0.push_str(more);
            Ok(())
        }

        #[inline]
        pub(crate) fn as_str(&self) -> &str {
            self.0.as_str()
        }

        #[inline]
        pub(crate) fn clear(&mut self) {
            self.0.clear();
        }

        pub(crate) fn shrink_to_fit(&mut self) {
            self.0.shrink_to_fit();
        }
    }
}

#[cfg(test)]
mod tests {
    #[test]
    fn the_first_bytes_are_taken() {
        assert_eq!(super::first_chunk(b"abcd"), Some(b"ab"));
        assert_eq!(super::first_chunk(b"ab"), Some(b"ab"));
        assert_eq!(super::first_chunk::<3>(b"ab"), None);
    }

    #[test]
    fn the_first_of_a_byte_is_found() {
        for length in 0..100 {
            assert_eq!(super::memchr(b'x', &[b'a'; 100][..length]), None);
            for position in 0..length {
                let mut bytes = [b'a'; 100];
                bytes[position..].fill(b'x');
                assert_eq!(super::memchr(b'x', &bytes[..length]), Some(position));
            }
        }
    }
}
