//! Random windows, most of them damaged: drawing them ends, within its bounds, and what is drawn is what the library's look-up finds.

#[path = "../../walks/src/random.rs"]
mod random;

use picture::rows::{size, Addresses, Below, Kind};
use picture::{svg::svg, text::text, Limits, Picture, Window};
use random::Random;
use tablepath::{look_up, Found};

const ORIGIN: u64 = 0x10_0000;
const WINDOWS: u64 = 1500;
const LIMITS: Limits = Limits { rows: 12, tables: 20 };

fn page(number: u64) -> u64 {
    ORIGIN + 4096 * number
}

/// A word of one of the kinds that matter, or any.
fn word(random: &mut Random, pages: u64) -> u64 {
    let rights = random.pick(&[1, 3, 7, 0x27, 0x67, 1 << 63 | 3]);
    match random.below(10) {
        0..=3 => page(random.below(pages)) | rights,
        4 => page(random.below(4 * pages)) | rights,
        5 => (random.below(1 << 12) << 30) | 1 << 7 | rights,
        6 => (random.below(1 << 20) << 21) | 1 << 7 | rights,
        7 => (random.below(1 << 28) << 12) | rights,
        8 => random.word() | 1,
        _ => 0,
    }
}

/// Pages of words at random, with runs of one word, or of frames that go on.
fn bytes(random: &mut Random) -> Vec<u8> {
    let pages = 1 + random.below(6);
    let mut bytes = vec![0; pages as usize * 4096];
    for page in 0..pages as usize {
        for _ in 0..random.pick(&[0, 1, 3, 20, 200]) {
            let (start, run) = (random.index(512), random.pick(&[1, 1, 2, 30, 512]));
            let step = random.pick(&[0, 0, 0x1000, 0x20_0000, 0x4000_0000]);
            let first = word(random, pages);
            for index in start..(start + run).min(512) {
                let word = first.wrapping_add(step * (index - start) as u64);
                let at = page * 4096 + index * 8;
                bytes[at..at + 8].copy_from_slice(&word.to_le_bytes());
            }
        }
    }
    bytes
}

/// What the picture says of an address; nothing where it leaves that out.
fn says(picture: &Picture, va: u64) -> Option<Found> {
    let Some(mut table) = picture.tables.first() else { return Some(Found::Outside) };
    loop {
        let index = va / size(table.level) % 512;
        let Some(row) = table.rows.iter().find(|row| (row.index..row.index + row.count).contains(&index)) else {
            return (table.more == 0).then_some(Found::Nothing);
        };
        match (row.kind, row.below) {
            (Kind::Damaged, _) => return Some(Found::Nothing),
            (Kind::Outside { .. }, _) => return Some(Found::Outside),
            (_, Below::Here(number) | Below::Again(number)) => table = &picture.tables[number],
            (_, Below::NotDrawn) => return None,
            (Kind::Page { .. } | Kind::Table { .. }, Below::Nothing) => {
                let on = if row.addresses == Addresses::Onward { index - row.index } else { 0 };
                let page = look_up_page(table.level, va, row.address + on * size(table.level));
                return (row.addresses != Addresses::Various).then_some(page);
            }
        }
    }
}

/// The rights are compared with those of the row, where it is drawn.
fn look_up_page(level: u64, va: u64, frame: u64) -> Found {
    let size = tablepath::Size::try_from(size(level)).expect("a page's size");
    let base = va / size.bytes() * size.bytes();
    Found::Page(tablepath::Page { base, size, frame, rights: tablepath::Rights::NONE })
}

fn without_rights(found: Found) -> Found {
    match found {
        Found::Page(page) => Found::Page(tablepath::Page { rights: tablepath::Rights::NONE, ..page }),
        other => other,
    }
}

#[test]
fn what_is_drawn_is_what_is_found() {
    let (mut compared, mut pages, mut upper) = (0, 0, 0);
    for number in 0..WINDOWS {
        let mut random = Random::new(0x71c7, number);
        let bytes = bytes(&mut random);
        let root = page(random.below(2));
        let picture = Picture::of(Window { bytes: &bytes, origin: ORIGIN }, root, LIMITS);
        let edges = picture.tables.iter().flat_map(|table| table.rows.iter().map(|row| table.range(row)));
        let edges: Vec<u64> = edges.flat_map(|(first, last)| [first, last]).collect();
        // In either half; and edges are drawn in one of them.
        let chance = (0..50).map(|_| ((random.word() << 16) as i64 >> 16) as u64);
        for va in edges.into_iter().chain(chance) {
            upper += va >> 63;
            let Some(says) = says(&picture, va) else { continue };
            let found = without_rights(look_up(&bytes, ORIGIN, root, va));
            assert_eq!(says, found, "window {number}, address {va:#x}");
            compared += 1;
            pages += u64::from(matches!(found, Found::Page(_)));
        }
    }
    assert!(compared > 50_000 && pages > 10_000, "{compared} were compared, {pages} of them pages");
    assert!(upper > 20_000, "{upper} of the upper half");
}

#[test]
fn drawing_ends_within_its_bounds() {
    for number in 0..WINDOWS {
        let mut random = Random::new(0xb0d5, number);
        let bytes = bytes(&mut random);
        // Any part of it, anywhere; and any root.
        let (from, to) = (random.index(bytes.len()), random.index(bytes.len() + 1));
        let part = if random.chance(1, 2) { &bytes[..] } else { &bytes[from.min(to)..to.max(from)] };
        let any = random.word();
        let origin = random.pick(&[ORIGIN, ORIGIN, ORIGIN + 1, 0, u64::MAX - 4096, any]);
        let root = random.pick(&[ORIGIN, ORIGIN, ORIGIN + 0x1fff, any]);
        let picture = Picture::of(Window { bytes: part, origin }, root, LIMITS);
        assert!(picture.tables.len() <= LIMITS.tables);
        let most = 3 + LIMITS.tables * (LIMITS.rows + 1);
        assert!(text(&picture).lines().count() <= most);
        let svg = svg(&picture);
        assert!(svg.starts_with("<svg ") && svg.ends_with("</svg>\n"));
        assert_eq!(svg.matches('<').count(), svg.matches('>').count());
        assert_eq!(svg.matches("<text ").count(), svg.matches("</text>").count());
    }
}

#[test]
fn the_rights_of_a_row_are_those_of_its_way() {
    for number in 0..WINDOWS / 5 {
        let mut random = Random::new(0x419, number);
        let bytes = bytes(&mut random);
        let picture = Picture::of(Window { bytes: &bytes, origin: ORIGIN }, ORIGIN, LIMITS);
        for table in &picture.tables {
            for row in table.rows.iter().filter(|row| matches!(row.kind, Kind::Page { .. })) {
                let (first, last) = table.range(row);
                for va in [first, last] {
                    let found = look_up(&bytes, ORIGIN, ORIGIN, va).page().map(|page| page.rights);
                    assert_eq!(row.way, found, "window {number}, address {va:#x}");
                }
            }
        }
    }
}
