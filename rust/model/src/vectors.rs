//! Cases with their answers, from the manual's tables of entries and from what an emulated machine's own walk did.
//! Answers are written out, not computed.

use crate::{Answer, Rights, Window};

pub struct Vector {
    pub says: String,
    pub bytes: Vec<u8>,
    pub origin: u64,
    pub cr3: u64,
    pub va: u64,
    pub answer: Answer,
}

impl Vector {
    pub fn window(&self) -> Window<'_> {
        Window { bytes: &self.bytes, origin: self.origin }
    }
}

/// An address whose indices are 254, 72, 418 and 359, from the root's on.
pub const VA: u64 = 0x7f12_3456_7abc;
pub const INDICES: [usize; 4] = [254, 72, 418, 359];

/// Its page of each size.
const BASE_4K: u64 = 0x7f12_3456_7000;
const BASE_2M: u64 = 0x7f12_3440_0000;
const BASE_1G: u64 = 0x7f12_0000_0000;

/// The root is at 0x1000, and the three tables below it follow.
pub const ROOT: u64 = 0x1000;
const TO_0X2000: u64 = 0x2007;
const TO_0X3000: u64 = 0x3007;
const TO_0X4000: u64 = 0x4007;

pub const ALL: Rights = Rights { writable: true, user: true, noexec: false };

/// The four tables, with one entry each.
fn tables(entries: [u64; 4]) -> Vec<u8> {
    let mut bytes = vec![0; 4 * 4096];
    for table in 0..4 {
        let at = 4096 * table + 8 * INDICES[table];
        bytes[at..at + 8].copy_from_slice(&entries[table].to_le_bytes());
    }
    bytes
}

fn small(last: u64) -> [u64; 4] {
    [TO_0X2000, TO_0X3000, TO_0X4000, last]
}

fn middle(pde: u64) -> [u64; 4] {
    [TO_0X2000, TO_0X3000, pde, 0]
}

fn large(pdpte: u64) -> [u64; 4] {
    [TO_0X2000, pdpte, 0, 0]
}

fn page_4k(frame: u64, rights: Rights) -> Answer {
    Answer::Page { base: BASE_4K, size: 0x1000, frame, rights }
}

fn page_2m(frame: u64) -> Answer {
    Answer::Page { base: BASE_2M, size: 0x20_0000, frame, rights: ALL }
}

fn page_1g(frame: u64) -> Answer {
    Answer::Page { base: BASE_1G, size: 0x4000_0000, frame, rights: ALL }
}

#[derive(Default)]
struct List(Vec<Vector>);

impl List {
    fn add(&mut self, says: impl Into<String>, bytes: Vec<u8>, origin: u64, cr3: u64, va: u64, answer: Answer) {
        self.0.push(Vector { says: says.into(), bytes, origin, cr3, va, answer });
    }

    /// The four tables in a window that is exactly theirs.
    fn way(&mut self, says: impl Into<String>, entries: [u64; 4], answer: Answer) {
        self.add(says, tables(entries), ROOT, ROOT, VA, answer);
    }
}

pub fn vectors() -> Vec<Vector> {
    let mut list = List::default();
    pages(&mut list);
    reserved(&mut list);
    rights(&mut list);
    addresses(&mut list);
    edges(&mut list);
    windows(&mut list);
    list.0
}

fn pages(list: &mut List) {
    let at = page_4k(0x123_4000, ALL);
    list.way("a page of 4 KiB", small(0x123_4007), at);
    list.way("bit 7 of a PTE is a memory type's", small(0x123_4087), at);
    list.way("a page of 2 MiB", middle(0x4000_0087), page_2m(0x4000_0000));
    list.way("bit 12 of a page of 2 MiB is a memory type's", middle(0x4000_1087), page_2m(0x4000_0000));
    list.way("a page of 1 GiB", large(0xc000_0087), page_1g(0xc000_0000));
    list.way("bit 12 of a page of 1 GiB is a memory type's", large(0xc000_1087), page_1g(0xc000_0000));
    list.way("the last frame of 4 KiB", small(0xf_ffff_ffff_f007), page_4k(0xf_ffff_ffff_f000, ALL));
    list.way("the last frame of 2 MiB", middle(0xf_ffff_ffe0_0087), page_2m(0xf_ffff_ffe0_0000));
    list.way("the last frame of 1 GiB", large(0xf_ffff_c000_0087), page_1g(0xf_ffff_c000_0000));
    for level in 0..4 {
        let mut entries = small(0x123_4007);
        entries[level] = 0;
        list.way(format!("a zero as entry {level} of the way"), entries, Answer::Nothing);
        entries[level] = 0xffff_ffff_ffff_fffe;
        list.way(format!("all but present in entry {level} of the way"), entries, Answer::Nothing);
        let free = if level < 3 { vec![3, 4, 5, 6, 8, 9, 10, 11] } else { vec![3, 4, 5, 6, 7, 8, 9, 10, 11] };
        for bit in free.into_iter().chain(52..=62) {
            let mut entries = small(0x123_4007);
            entries[level] |= 1 << bit;
            list.way(format!("bit {bit} of entry {level} of the way counts for nothing"), entries, at);
        }
    }
}

fn reserved(list: &mut List) {
    // The same word at two levels.
    list.way("0x40002087 as a PDE", middle(0x4000_2087), Answer::Nothing);
    list.way("0x40002087 as a PTE", small(0x4000_2087), page_4k(0x4000_2000, ALL));
    list.way("bit 7 of a PML4E", [0x2087, TO_0X3000, TO_0X4000, 0x123_4007], Answer::Nothing);
    for bit in 13..=20 {
        list.way(format!("bit {bit} of a page of 2 MiB"), middle(0x4000_0087 | 1 << bit), Answer::Nothing);
    }
    for bit in 13..=29 {
        list.way(format!("bit {bit} of a page of 1 GiB"), large(0xc000_0087 | 1 << bit), Answer::Nothing);
    }
}

fn rights(list: &mut List) {
    for level in 0..4 {
        let mut entries = small(0x123_4007);
        entries[level] &= !2;
        let read = Rights { writable: false, user: true, noexec: false };
        list.way(format!("not writable by entry {level} of the way"), entries, page_4k(0x123_4000, read));
        let mut entries = small(0x123_4007);
        entries[level] &= !4;
        let kernel = Rights { writable: true, user: false, noexec: false };
        list.way(format!("not the user's by entry {level} of the way"), entries, page_4k(0x123_4000, kernel));
        let mut entries = small(0x123_4007);
        entries[level] |= 0x8000_0000_0000_0000;
        let data = Rights { writable: true, user: true, noexec: true };
        list.way(format!("not executable by entry {level} of the way"), entries, page_4k(0x123_4000, data));
    }
}

fn addresses(list: &mut List) {
    let bytes = || tables(small(0x123_4007));
    let at = page_4k(0x123_4000, ALL);
    for bit in [0, 1, 2, 3, 4, 5, 6, 7, 8, 9, 10, 11, 52, 53, 54, 55, 56, 57, 58, 59, 60, 61, 62, 63] {
        list.add(format!("bit {bit} of CR3 is no address"), bytes(), ROOT, ROOT | 1 << bit, VA, at);
    }
    list.add("the first byte of the page", bytes(), ROOT, ROOT, BASE_4K, at);
    list.add("the last byte of the page", bytes(), ROOT, ROOT, 0x7f12_3456_7fff, at);
    list.add("the byte after it", bytes(), ROOT, ROOT, 0x7f12_3456_8000, Answer::Nothing);
    for bit in 47..=63 {
        list.add(format!("bit {bit} of the address"), bytes(), ROOT, ROOT, VA | 1 << bit, Answer::NoAddress);
    }
    list.add("bits 47 to 63 of the address: another", bytes(), ROOT, ROOT, VA | 0x1_ffff << 47, Answer::Nothing);

    // A root whose last entry names the root: read as the entry of each level, and the page is the root's own.
    let mut own = vec![0; 4096];
    own[4088..].copy_from_slice(&0x1007u64.to_le_bytes());
    let last = Answer::Page { base: 0xffff_ffff_ffff_f000, size: 0x1000, frame: 0x1000, rights: ALL };
    list.add("the last page of all, through the root four times", own.clone(), ROOT, ROOT, 0xffff_ffff_ffff_f000, last);
    list.add("the last address of all", own.clone(), ROOT, ROOT, 0xffff_ffff_ffff_ffff, last);
    list.add("the same walk without the high bits", own.clone(), ROOT, ROOT, 0xffff_ffff_ffff, Answer::NoAddress);
    for bit in 47..=63 {
        let va = 0xffff_ffff_ffff_ffff ^ 1 << bit;
        list.add(format!("all ones but bit {bit}"), own.clone(), ROOT, ROOT, va, Answer::NoAddress);
    }
}

/// The edges of the two halves, and of the hole between them: an empty root, and one whose 512 entries are all alike, so that every address is
/// in a page of 4 KiB, of 2 MiB or of 1 GiB.
fn edges(list: &mut List) {
    let full = |word: u64| word.to_le_bytes().repeat(512);
    // The root, the tables that all its entries name, and so on, up to the page.
    let small = [full(TO_0X2000), full(TO_0X3000), full(TO_0X4000), full(0x123_4007)].concat();
    let middle = [full(TO_0X2000), full(TO_0X3000), full(0x4000_0087)].concat();
    let large = [full(TO_0X2000), full(0xc000_0087)].concat();
    // What is asked, and the bases of its page of 4 KiB, of 2 MiB and of 1 GiB.
    for (va, bases) in [
        (0x0000_0000_0000_0000, [0, 0, 0]),
        (0x0000_7fff_ffff_ffff, [0x0000_7fff_ffff_f000, 0x0000_7fff_ffe0_0000, 0x0000_7fff_c000_0000]),
        (0xffff_8000_0000_0000, [0xffff_8000_0000_0000, 0xffff_8000_0000_0000, 0xffff_8000_0000_0000]),
        (0xffff_ffff_ffff_ffff, [0xffff_ffff_ffff_f000, 0xffff_ffff_ffe0_0000, 0xffff_ffff_c000_0000]),
    ] {
        let page = |base, size, frame| Answer::Page { base, size, frame, rights: ALL };
        list.add(format!("{va:#x}, empty"), full(0), ROOT, ROOT, va, Answer::Nothing);
        list.add(format!("{va:#x}, 4 KiB"), small.clone(), ROOT, ROOT, va, page(bases[0], 0x1000, 0x123_4000));
        list.add(format!("{va:#x}, 2 MiB"), middle.clone(), ROOT, ROOT, va, page(bases[1], 0x20_0000, 0x4000_0000));
        list.add(format!("{va:#x}, 1 GiB"), large.clone(), ROOT, ROOT, va, page(bases[2], 0x4000_0000, 0xc000_0000));
    }
    for va in [
        0x0000_8000_0000_0000,
        0x0000_ffff_ffff_ffff,
        0x0001_0000_0000_0000,
        0x7fff_ffff_ffff_ffff,
        0x8000_0000_0000_0000,
        0xffff_0000_0000_0000,
        0xffff_7fff_ffff_ffff,
    ] {
        for (bytes, name) in
            [(full(0), "empty"), (small.clone(), "4 KiB"), (middle.clone(), "2 MiB"), (large.clone(), "1 GiB")]
        {
            list.add(format!("{va:#x}, {name}"), bytes, ROOT, ROOT, va, Answer::NoAddress);
        }
    }
}

fn windows(list: &mut List) {
    let bytes = tables(small(0x123_4007));
    let at = page_4k(0x123_4000, ALL);
    list.add("an empty window", vec![], ROOT, ROOT, VA, Answer::Outside);
    list.add("the window lacks the root's first byte", bytes[1..].to_vec(), ROOT + 1, ROOT, VA, Answer::Outside);
    list.add("the window lacks the last table's last byte", bytes[..0x3fff].to_vec(), ROOT, ROOT, VA, Answer::Outside);
    list.add("the root is below the window", bytes[0x1000..].to_vec(), 0x2000, ROOT, VA, Answer::Outside);
    list.add("the last table is above the window", bytes[..0x3000].to_vec(), ROOT, ROOT, VA, Answer::Outside);
    list.add("no address, and no root", vec![], ROOT, ROOT, 1 << 47, Answer::NoAddress);

    // Bytes around the tables, so that the window begins and ends anywhere.
    for (before, after) in [(1, 0), (3, 5), (4095, 1), (7, 4097)] {
        let mut more = vec![0xff; before];
        more.extend(&bytes);
        more.extend(vec![0xff; after]);
        list.add(format!("{before} bytes before the tables, {after} after"), more, ROOT - before as u64, ROOT, VA, at);
    }
    let mut last = vec![0; 4096];
    last[4088..].copy_from_slice(&0xf_ffff_ffff_f007u64.to_le_bytes());
    let own = Answer::Page { base: 0xffff_ffff_ffff_f000, size: 0x1000, frame: 0xf_ffff_ffff_f000, rights: ALL };
    let top = 0xf_ffff_ffff_f000;
    list.add("tables in the last page that an entry can name", last.clone(), top, top, 0xffff_ffff_ffff_f000, own);
    list.add("a window after it", last.clone(), 1 << 52, 1 << 52, 0xffff_ffff_ffff_f000, Answer::Outside);
    list.add(
        "a window at the end of all numbers",
        last,
        0xffff_ffff_ffff_f000,
        top,
        0xffff_ffff_ffff_f000,
        Answer::Outside,
    );
}
