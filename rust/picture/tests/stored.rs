//! Windows of each kind, and the text of each as it is stored beside this file: read by a person before it was stored.

use picture::text::text;
use picture::{Limits, Picture, Window};

const ORIGIN: u64 = 0x10_0000;
/// The root is the window's first page.
const ROOT: u64 = ORIGIN;
const ALL: u64 = 7;
const LARGE: u64 = 1 << 7;

/// The physical address of a page of the window.
fn page(number: u64) -> u64 {
    ORIGIN + 4096 * number
}

/// So many pages, with these words: page, index, word.
fn window(pages: u64, words: &[(u64, u64, u64)]) -> Vec<u8> {
    let mut bytes = vec![0; pages as usize * 4096];
    for (page, index, word) in words {
        let at = (page * 4096 + index * 8) as usize;
        bytes[at..at + 8].copy_from_slice(&word.to_le_bytes());
    }
    bytes
}

fn drawn(bytes: &[u8], origin: u64, root: u64, limits: Limits) -> String {
    text(&Picture::of(Window { bytes, origin }, root, limits))
}

fn assert_drawn(pages: u64, words: &[(u64, u64, u64)], should: &str) {
    assert_eq!(drawn(&window(pages, words), ORIGIN, ROOT, Limits::default()), should);
}

/// Names each table by the one before it: root, PDPT, PD, PT.
fn way() -> Vec<(u64, u64, u64)> {
    vec![(0, 0, page(1) | ALL), (1, 0, page(2) | ALL), (2, 0, page(3) | ALL)]
}

#[test]
fn nothing() {
    assert_drawn(1, &[(0, 5, 0xffff_ffff_ffff_fffe)], include_str!("stored/nothing.txt"));
}

#[test]
fn a_root_outside() {
    let bytes = window(1, &[]);
    assert_eq!(drawn(&bytes, ORIGIN, ROOT + 4096, Limits::default()), include_str!("stored/root_outside.txt"));
    assert_eq!(drawn(&[], 0, 0, Limits::default()), include_str!("stored/no_bytes.txt"));
}

/// The last page is not whole, and so no table; nor is the first of a window that begins behind its first byte.
#[test]
fn an_odd_window() {
    let bytes = window(3, &[(0, 0, page(1) | ALL), (1, 0, page(2) | ALL), (1, 1, LARGE | 3)]);
    let text = drawn(&bytes[..2 * 4096 + 4095], ORIGIN, ROOT, Limits::default());
    assert_eq!(text, include_str!("stored/odd.txt"));
    assert!(drawn(&bytes[1..], ORIGIN + 1, ROOT, Limits::default()).contains("OUTSIDE: the root"));
}

#[test]
fn pages_of_each_size() {
    let mut words = way();
    words.extend([
        (1, 1, 0x4000_0000 | LARGE | 0x63),
        (1, 511, 0xf_ffff_c000_0000 | LARGE | 1 << 63 | 7),
        (2, 1, 0x20_0000 | LARGE | 1 << 12 | 0x25),
        (3, 0, 0x5000 | 0x41),
        (3, 511, 0xf_ffff_ffff_f000 | LARGE | 1 << 63 | 3),
    ]);
    assert_drawn(4, &words, include_str!("stored/sizes.txt"));
}

/// Entries of the root that are alike, on both sides of the hole; and the last page of all.
#[test]
fn both_halves() {
    let mut words: Vec<_> = (254..258).map(|index| (0, index, page(1) | ALL)).collect();
    words.extend([(0, 511, page(2) | ALL), (1, 0, 0x4000_0000 | LARGE | 7), (1, 511, 0xc000_0000 | LARGE | 7)]);
    words.push((2, 511, 0x8000_0000 | LARGE | 7));
    assert_drawn(3, &words, include_str!("stored/halves.txt"));
}

/// The page grants more than its way; and the way's entries were walked through.
#[test]
fn rights_of_the_way() {
    let words = [(0, 0, page(1) | 0x25), (1, 0, page(2) | 1 << 63 | 0x27), (2, 7, 0x20_0000 | LARGE | 7)];
    assert_drawn(3, &words, include_str!("stored/rights.txt"));
}

#[test]
fn damage_at_each_level() {
    let mut words = way();
    words.extend([
        (0, 1, page(1) | LARGE | ALL),
        (1, 1, 0x4000_2000 | LARGE | 7),
        (1, 2, 1 << 29 | LARGE | 7),
        (2, 1, 1 << 20 | LARGE | 7),
        (3, 1, 0xfff0_0000_0000_0fff),
    ]);
    assert_drawn(4, &words, include_str!("stored/damage.txt"));
}

#[test]
fn ways_that_leave_the_window() {
    let mut words = way();
    words.extend([(0, 9, 0x7), (1, 3, page(4) | 7), (1, 4, page(5) | 7), (1, 6, page(9) | 7), (1, 7, page(9) | 7)]);
    words.extend([(2, 5, 0xf_ffff_ffff_f001), (2, 6, 0x1001), (2, 7, 0x9001)]);
    assert_drawn(4, &words, include_str!("stored/outside.txt"));
}

/// The root as its own last entry, as kernels have it: each level is drawn once.
#[test]
fn a_root_that_names_itself() {
    let words = [(0, 0, page(1) | ALL), (0, 511, page(0) | ALL), (1, 0, 0x4000_0000 | LARGE | 7)];
    assert_drawn(2, &words, include_str!("stored/itself.txt"));
}

/// One page that is every table: 2^36 pages.
#[test]
fn a_page_that_is_every_table() {
    let words: Vec<_> = (0..512).map(|index| (0, index, page(0) | ALL)).collect();
    assert_drawn(1, &words, include_str!("stored/every_table.txt"));
}

#[test]
fn tables_that_are_shared() {
    let mut words = way();
    words.extend([
        (0, 1, page(1) | 5),
        (0, 2, page(1) | 5),
        (1, 1, page(2) | ALL),
        (2, 1, page(3) | ALL),
        (3, 0, 0x5007),
    ]);
    assert_drawn(4, &words, include_str!("stored/shared.txt"));
}

#[test]
fn long_runs() {
    let mut words = way();
    words.extend((0..512).map(|index| (3, index, 0x1_0000_0000 + index * 4096 + 7)));
    words.extend((1..100).map(|index| (2, index, (index * 0x20_0000) | LARGE | 7)));
    // The machine has walked through some, one has other rights, and one is damaged.
    words.extend((100..200).map(|index| (2, index, (index * 0x20_0000) | LARGE | 0x27)));
    words.push((2, 200, (200 * 0x20_0000) | LARGE | 5));
    words.push((2, 201, (201 * 0x20_0000) | LARGE | 1 << 13 | 7));
    words.extend((202..512).map(|index| (2, index, (index * 0x20_0000) | LARGE | 7)));
    words.extend((1..512).map(|index| (1, index, 0x4000_0000 | LARGE | 7)));
    assert_drawn(4, &words, include_str!("stored/runs.txt"));
}

/// More rows than are drawn: pages at various frames are folded then; and where that does not help, the rest is left out, and said so.
#[test]
fn more_than_is_drawn() {
    let mut words = way();
    words.extend((0..256).map(|index| (3, index, (511 - index) * 0x3000 + 7)));
    words.extend((256..512).map(|index| (3, index, index * 0x3000 + 1 + index % 2 * 2)));
    words.extend((1..9).map(|index| (2, index, page(4) | ALL)));
    words.extend((9..20).map(|index| (2, index, page(4 + index % 2) | ALL)));
    let limits = Limits { rows: 6, tables: 5 };
    let bytes = window(6, &words);
    assert_eq!(drawn(&bytes, ORIGIN, ROOT, limits), include_str!("stored/limits.txt"));
}
