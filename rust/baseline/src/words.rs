//! The words of entries, and the numbers of the four levels: 3 is the root's, 0 that of the last tables.

/// Rights: bits of a number.
pub const WRITABLE: u64 = 1;
pub const USER: u64 = 2;
pub const NOEXEC: u64 = 4;

pub const PAGE: u64 = 4096;
pub const ROOT_LEVEL: usize = 3;
/// How much of the addresses each half has; and where physical addresses end.
const HALF: u64 = 1 << 47;
pub const LIMIT: u64 = 1 << 52;

const PRESENT: u64 = 1;
/// Above the last tables: a page and no table.
const LARGE: u64 = 1 << 7;
const ADDRESS: u64 = LIMIT - PAGE;
/// Bits 1, 2 and 63.
const RIGHTS: u64 = 1 << 63 | 6;
/// Present, writable and the user's: what the entry of a table grants.
const TABLE: u64 = 7;

/// Is the number an address? The lower half is up to 2^47, the upper one from 2^64 - 2^47 on.
#[inline]
pub const fn canonical(va: u64) -> bool {
    va.wrapping_add(HALF) < 2 * HALF
}

/// What one entry of the level covers.
#[inline]
pub const fn size(level: usize) -> u64 {
    PAGE << (9 * level)
}

/// The entry of the level that the address goes through.
#[inline]
pub const fn index(level: usize, va: u64) -> usize {
    (va >> (12 + 9 * level)) as usize & 511
}

/// Could a page with these rights be written and executed?
#[inline]
pub const fn write_execute(rights: u64) -> bool {
    rights & (WRITABLE | NOEXEC) == WRITABLE
}

#[inline]
const fn rights_word(rights: u64) -> u64 {
    (rights & (WRITABLE | USER)) << 1 | (rights & NOEXEC) << 61
}

/// The rights of a way: granted by all of its entries, and what any of them forbids.
#[inline]
pub const fn rights(all: u64, any: u64) -> u64 {
    all >> 1 & (WRITABLE | USER) | any >> 63 << 2
}

#[inline]
pub const fn page_word(level: usize, frame: u64, rights: u64) -> u64 {
    let large = if level == 0 { 0 } else { LARGE };
    frame | large | PRESENT | rights_word(rights)
}

#[inline]
pub const fn table_word(table: u64) -> u64 {
    table | TABLE
}

#[inline]
pub const fn with_rights(word: u64, rights: u64) -> u64 {
    word & !RIGHTS | rights_word(rights)
}

#[inline]
pub const fn present(word: u64) -> bool {
    word & PRESENT != 0
}

/// Of a present entry.
#[inline]
pub const fn is_page(level: usize, word: u64) -> bool {
    level == 0 || word & LARGE != 0
}

/// A large page whose reserved bits are not 0: to a walk it is not there. The root has no pages at all.
#[inline]
pub const fn reserved(level: usize, word: u64) -> bool {
    match level {
        0 => false,
        ROOT_LEVEL => true,
        _ => word & (size(level) - 1) >> 13 << 13 != 0,
    }
}

/// The physical address of the table that a word names.
#[inline]
pub const fn table(word: u64) -> u64 {
    word & ADDRESS
}

/// The physical address of the page that a word maps.
#[inline]
pub const fn frame(level: usize, word: u64) -> u64 {
    word & ADDRESS & !(size(level) - 1)
}
