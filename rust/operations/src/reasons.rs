//! The numbers of the reasons, by the names that C has for them.

// tools/reasons: numbers (of include/reasons.txt)
pub const DONE: u64 = 0;
pub const SIZE: u64 = 1;
pub const BASE_UNALIGNED: u64 = 2;
pub const FRAME_UNALIGNED: u64 = 3;
pub const BASE_RANGE: u64 = 4;
pub const FRAME_RANGE: u64 = 5;
pub const FRAME_IN_POOL: u64 = 6;
pub const OVERLAP: u64 = 7;
pub const NO_ROOM: u64 = 8;
pub const NOTHING_STARTS: u64 = 9;
pub const STRAY: u64 = 10;
pub const BAD_LIST: u64 = 11;
pub const ORIGIN_UNALIGNED: u64 = 12;
pub const LENGTH_UNALIGNED: u64 = 13;
pub const POOL_UNALIGNED: u64 = 14;
pub const ROOT_UNALIGNED: u64 = 15;
pub const POOL_LARGE: u64 = 16;
pub const POOL_SMALL: u64 = 17;
pub const POOL_OUTSIDE: u64 = 18;
pub const BAD_ROOT: u64 = 19;
pub const NO_BOOK: u64 = 20;
pub const OTHER_BOOK: u64 = 21;
pub const BAD_BOOK: u64 = 22;
pub const UNKNOWN: u64 = 23;
pub const SPENT: u64 = 24;
pub const RIGHTS: u64 = 25;
pub const POINTER_UNALIGNED: u64 = 26;
pub const WRITE_EXECUTE: u64 = 27;
// tools/reasons: end
