//! What the blocks of netlists and of tables have in common.

use crate::word::number2;

pub const LENGTH: usize = 512;

/// The bytes before a block's contents: four numbers, the check the last.
pub const HEADER: usize = 8;

/// The place of the check.
pub const CHECK: usize = 6;

/// The sum of a block's 256 words, which the check makes 0.
pub fn sum(block: &[u8]) -> u16 {
    let words = block.chunks_exact(2).map(|word| number2(word, 0));
    words.fold(0, u16::wrapping_add)
}
