//! Eight bytes at a time, as a word.

/// 1 in each byte.
const ONES: u64 = u64::MAX / 255;
/// The high bit of each byte.
const HIGHS: u64 = ONES << 7;

/// The same byte eight times.
#[inline(always)]
pub fn repeated(byte: u8) -> u64 {
    u64::from(byte) * ONES
}

/// The word that starts at an index.
#[inline(always)]
pub fn word_at(bytes: &[u8], index: usize) -> u64 {
    let bytes = bytes[index..].first_chunk().expect("eight are left");
    u64::from_le_bytes(*bytes)
}

/// Whether all bytes are below a limit, which is at most 128.
#[inline(always)]
pub fn all_below(word: u64, limit: u8) -> bool {
    let above = word.wrapping_add(repeated(128 - limit));
    (word | above) & HIGHS == 0
}

/// A bit for each byte that is 0, among bytes below 128.
#[inline(always)]
pub fn zeros(word: u64) -> u64 {
    high_where_zero(word).wrapping_mul(0x0002_0408_1020_4081) >> 56
}

/// 1 in each byte that equals one below 128, else 0, among bytes below 128.
#[inline(always)]
pub fn bytes_equal(word: u64, byte: u8) -> u64 {
    high_where_zero(word ^ repeated(byte)) >> 7
}

/// The high bit of each byte that is 0, among bytes below 128.
#[inline(always)]
fn high_where_zero(word: u64) -> u64 {
    !word.wrapping_add(HIGHS - ONES) & HIGHS
}

#[cfg(test)]
mod tests {
    use super::*;
    use crate::random::Random;

    #[test]
    fn words_are_tested_as_their_bytes() {
        let mut random = Random::new(0x12_5eed);
        for _ in 0..100_000 {
            let bytes: [u8; 8] = std::array::from_fn(|_| random.pick(&[0, 0, 1, 2, 14, 127]));
            let word = u64::from_le_bytes(bytes);
            let is_zero = |bit: usize| zeros(word) >> bit & 1 == 1;
            assert!((0..8).all(|index| is_zero(index) == (bytes[index] == 0)));
            let twos = bytes.map(|byte| u8::from(byte == 2));
            assert_eq!(bytes_equal(word, 2), u64::from_le_bytes(twos));
            let wide = bytes.map(|byte| if byte == 127 { 255 } else { byte });
            let below = wide.iter().all(|&byte| byte < 14);
            assert_eq!(all_below(u64::from_le_bytes(wide), 14), below, "{wide:?}");
        }
    }
}
