//! Where the memory of a scene lies, and which part of it is lent as the window.

use crate::random::Random;

pub const PAGE: usize = 4096;

/// Where the memory lies: mostly where entries can name it, and also around 2^52 and up to 2^64.
pub fn first(random: &mut Random, pages: u64) -> u64 {
    let top = 1 << 40;
    let page = match random.below(32) {
        0 | 1 => 0,
        2..=9 => random.below(1 << 10),
        10..=12 => top - pages,
        13 => top - random.below(pages + 1),
        14 if random.chance(1, 2) => top + random.below(4),
        14 => (1 << 52) - random.below(pages + 1),
        15 => random.below(1 << 52),
        _ => random.below(top - pages),
    };
    page.wrapping_mul(PAGE as u64)
}

/// The part of the memory that is lent.
pub fn part(random: &mut Random, len: usize) -> (usize, usize) {
    let cut = |random: &mut Random| match random.below(4) {
        0 => 0,
        1 => 1 + random.index(16),
        2 => random.index(PAGE + 1),
        _ => PAGE * random.index(len / PAGE / 2 + 1),
    };
    match random.below(16) {
        0..=9 => (0, len),
        10..=13 => {
            let from = cut(random).min(len);
            (from, len - cut(random).min(len - from))
        }
        14 => {
            let from = random.index(len + 1);
            (from, from + random.index(len - from + 1))
        }
        _ => {
            let short = random.pick(&[0, 1, 7, 8, 9, 4095, 4096, 4097, 8191, 8192, 8193, 12289]).min(len);
            let from = if random.chance(1, 2) { 0 } else { random.index(len - short + 1) };
            (from, from + short)
        }
    }
}
