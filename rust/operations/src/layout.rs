//! Where a book has what, by words. The mark is the first of the header.

pub const MARK: [u8; 8] = *b"the-book";
pub const PAGES: u64 = 1;
pub const ROOT: u64 = 2;
pub const TICKETS: u64 = 3;
pub const FREE: u64 = 4;
pub const ASIDE: u64 = 5;
pub const HEAD: u64 = 6;
/// How many words the header has. Behind them come the ring, a slot for each page of the pool, and then a count for each.
pub const HEADER: u64 = 16;
