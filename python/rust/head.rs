//! Sequences as numbers of a tape.

use crate::tape::NUMBERS_PER_VALUE;

/// A sequence without its numbers: how many there are, whether some are left out, its
/// intermediates, and its final byte.
pub struct Head {
    pub count: usize,
    pub ignore: bool,
    pub intermediates: [u8; 2],
    pub intermediate_count: usize,
    pub final_byte: char,
}

impl Head {
    #[inline]
    pub fn new(count: usize, intermediates: &[u8], ignore: bool, final_byte: char) -> Self {
        let (intermediate_count, intermediates) = match intermediates {
            [] => (0, [0; 2]),
            [first] => (1, [*first, 0]),
            [first, second, ..] => (2, [*first, *second]),
        };
        Head {
            count,
            ignore,
            intermediates,
            intermediate_count,
            final_byte,
        }
    }

    // At which bit a field of a packed head begins. The count of numbers has the lowest.
    const INTERMEDIATE_COUNT: u32 = 6;
    const IGNORE: u32 = 8;
    const FIRST_INTERMEDIATE: u32 = 9;
    const SECOND_INTERMEDIATE: u32 = 17;
    const FINAL_BYTE: u32 = 25;

    #[inline]
    pub fn pack(&self) -> i64 {
        let [first, second] = self.intermediates;
        self.count as i64
            | (self.intermediate_count as i64) << Self::INTERMEDIATE_COUNT
            | i64::from(self.ignore) << Self::IGNORE
            | i64::from(first) << Self::FIRST_INTERMEDIATE
            | i64::from(second) << Self::SECOND_INTERMEDIATE
            | i64::from(u32::from(self.final_byte)) << Self::FINAL_BYTE
    }

    /// How many values the numbers take.
    pub fn value_count(&self) -> usize {
        (self.count + NUMBERS_PER_VALUE - 1) / NUMBERS_PER_VALUE
    }

    pub fn unpack(field: i64) -> Self {
        let byte_at = |bit: u32| (field >> bit) as u8;
        Head {
            count: (field & 63) as usize,
            ignore: field >> Self::IGNORE & 1 == 1,
            intermediates: [
                byte_at(Self::FIRST_INTERMEDIATE),
                byte_at(Self::SECOND_INTERMEDIATE),
            ],
            intermediate_count: (field >> Self::INTERMEDIATE_COUNT & 3) as usize,
            final_byte: char::from(byte_at(Self::FINAL_BYTE)),
        }
    }
}
