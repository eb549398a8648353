//! Random start words.

use crate::xorshift::Random;

/// The 544 bytes of 272 start words, small ones more often than not.
pub fn start_words(random: &mut Random) -> Vec<u8> {
    let mut word = || match random.below(10) {
        0..=6 => random.below(6) as u16,
        7 => 0,
        _ => random.word(),
    };
    (0..272).flat_map(|_| word().to_le_bytes()).collect()
}
