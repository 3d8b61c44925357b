//! What the compiled library says of single entries, against the manual's tables: words with every bit, at every level.

use tablepath::numbers::{entry, Said};
use walks::random::Random;

const ORIGIN: u64 = 0x7000;
const WORDS: u64 = 300_000;

fn bits(word: u64, high: u32, low: u32) -> u64 {
    (word >> low) & (u64::MAX >> (63 - (high - low)))
}

/// From "Formats of CR3 and Paging-Structure Entries with 4-Level Paging", at a physical width of 52 bits.
fn by_the_manual(level: u64, word: u64) -> Said {
    let bare = |kind| Said { kind, ..Said::default() };
    let (writable, user, no_execute) = (bits(word, 1, 1), bits(word, 2, 2), bits(word, 63, 63));
    let (accessed, dirty) = (bits(word, 5, 5), bits(word, 6, 6));
    let rights = writable + 2 * user + 4 * no_execute;
    let page = |address| Said { kind: 1, address, rights, marks: accessed + 2 * dirty };
    match (level, bits(word, 0, 0), bits(word, 7, 7)) {
        (_, 0, _) => bare(0),
        (0, ..) => page(bits(word, 51, 12) << 12),
        (_, _, 0) => Said { kind: 3, address: bits(word, 51, 12) << 12, rights, marks: accessed },
        (1, ..) if bits(word, 20, 13) == 0 => page(bits(word, 51, 21) << 21),
        (2, ..) if bits(word, 29, 13) == 0 => page(bits(word, 51, 30) << 30),
        _ => bare(4),
    }
}

/// Any word; or one whose address is a large page's, with one bit turned over.
fn word(random: &mut Random) -> u64 {
    match random.below(4) {
        0 => random.word(),
        1 => random.word() | 1,
        kind => {
            let address = if kind == 2 { 21 } else { 30 };
            let large = random.below(1 << 52) >> address << address | 0x81;
            (large | random.word() & (0xfff0_0000_0000_0f7e)) ^ (1 << random.below(64))
        }
    }
}

#[test]
fn every_kind_at_every_level() {
    let mut window = vec![0; 4096];
    let mut kinds = [[0; 5]; 4];
    for number in 0..WORDS {
        let mut random = Random::new(0xe27, number);
        let (level, index, word) = (random.below(4), random.index(512), word(&mut random));
        window[8 * index..8 * index + 8].copy_from_slice(&word.to_le_bytes());
        let said = entry(&window, ORIGIN, ORIGIN, level, index as u64);
        assert_eq!(said, by_the_manual(level, word), "level {level}, word {word:#x}");
        kinds[level as usize][said.kind as usize] += 1;
    }
    // At the last level there is no table and nothing reserved, at the root no page.
    let missing = [[1, 1, 0, 0, 0], [1, 1, 0, 1, 1], [1, 1, 0, 1, 1], [1, 0, 0, 1, 1]];
    assert_eq!(kinds.map(|of| of.map(|count| u64::from(count > 1000))), missing, "{kinds:?}");
}

#[test]
fn what_is_not_in_the_window_is_not_read() {
    let window = vec![0xff; 3 * 4096];
    let outside = Said { kind: 2, ..Said::default() };
    let inside =
        |len: usize, origin, table, level, index| entry(&window[..len], origin, table, level, index) != outside;
    assert!(inside(4096, ORIGIN, ORIGIN, 0, 0) && inside(4096, ORIGIN, ORIGIN, 3, 511));
    assert!(inside(4096, ORIGIN, ORIGIN | 0xfff0_0000_0000_0fff, 0, 0), "only bits 12 to 51 are its address");
    assert!(!inside(4096, ORIGIN, ORIGIN, 0, 512) && !inside(4096, ORIGIN, ORIGIN, 0, u64::MAX));
    assert!(!inside(4096, ORIGIN, ORIGIN, 4, 0) && !inside(4096, ORIGIN, ORIGIN, u64::MAX, 0));
    assert!(!inside(4095, ORIGIN, ORIGIN, 0, 0) && !inside(0, ORIGIN, ORIGIN, 0, 0));
    assert!(!inside(4096, ORIGIN + 1, ORIGIN, 0, 0) && inside(4097, ORIGIN - 1, ORIGIN, 0, 0));
    assert!(!inside(3 * 4096, ORIGIN, ORIGIN - 4096, 0, 0) && !inside(3 * 4096, ORIGIN, ORIGIN + 3 * 4096, 0, 0));
    assert!(inside(3 * 4096, 0xf_ffff_ffff_d000, 0xf_ffff_ffff_f000, 0, 0), "the last page of all");
}
