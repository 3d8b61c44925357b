//! Random entries that a walk takes: for tables, and for pages of each size.

use crate::random::Random;

/// Bits 12 to 51, which name a table or a frame.
pub const ADDRESS: u64 = (1 << 52) - (1 << 12);
/// Bits that mean nothing to a walk: in an entry that names a table, in a page's of 4 KiB, and in a larger page's.
const FREE_TABLE: u64 = 0x7ff0_0000_0000_0f78;
const FREE_SMALL: u64 = FREE_TABLE | 1 << 7;
const FREE_LARGE: u64 = FREE_TABLE | 1 << 12;

/// Present, with rights of which most grant, and free bits at random half of the time.
fn present(random: &mut Random, free: u64) -> u64 {
    let mut word = 1;
    if random.chance(3, 4) {
        word |= 1 << 1;
    }
    if random.chance(3, 4) {
        word |= 1 << 2;
    }
    if random.chance(1, 5) {
        word |= 1 << 63;
    }
    if random.chance(1, 2) {
        word |= random.word() & free;
    }
    word
}

pub fn table_word(random: &mut Random, table: u64) -> u64 {
    table | present(random, FREE_TABLE)
}

/// The entry of a page that ends the way at this step.
pub fn page_word(random: &mut Random, step: u32) -> u64 {
    let free = 39 - 9 * step;
    let frame = match random.below(8) {
        0 => 0,
        1 => ADDRESS,
        2 => random.below(1 << 14) << 12,
        _ => random.word() & ADDRESS,
    };
    let frame = frame >> free << free;
    if step == 3 {
        frame | present(random, FREE_SMALL)
    } else {
        frame | 1 << 7 | present(random, FREE_LARGE)
    }
}
