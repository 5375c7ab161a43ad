//! Where a stream is cut.

/// The chunks of a stream, of 0 to `1 << size % 8` bytes. `seed` decides how many each has.
pub fn chunks(stream: &[u8], size: u8, seed: u8) -> Vec<&[u8]> {
    let (most, mut state, mut rest) = (1 << (size % 8), u32::from(seed) + 1, stream);
    let mut chunks = Vec::new();
    while !rest.is_empty() {
        state = next(state);
        let (chunk, after) = rest.split_at((state as usize % (most + 1)).min(rest.len()));
        chunks.push(chunk);
        rest = after;
    }
    chunks
}

/// The next of 2^32 - 1 numbers that look random (xorshift of Marsaglia).
fn next(mut state: u32) -> u32 {
    state ^= state << 13;
    state ^= state >> 17;
    state ^ (state << 5)
}
