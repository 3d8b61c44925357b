//! What both drawings say, in words.

use crate::rows::{size, Addresses, Below, Kind, Row};
use crate::tree::{Picture, Table};

/// The manual's names for tables, by the level of their entries.
pub const NAMES: [&str; 4] = ["PT", "PD", "PDPT", "PML4"];

/// A number of bytes in the largest unit that it is a multiple of.
pub fn bytes(n: u64) -> String {
    let units = [(40, "TiB"), (30, "GiB"), (20, "MiB"), (10, "KiB")];
    match units.into_iter().find(|(bits, _)| n > 0 && n.trailing_zeros() >= *bits) {
        Some((bits, unit)) => format!("{} {unit}", n >> bits),
        None => format!("{n} bytes"),
    }
}

/// `1 table`, `2 tables`.
pub fn count(n: u64, one: &str, more: &str) -> String {
    if n == 1 {
        format!("1 {one}")
    } else {
        format!("{n} {more}")
    }
}

/// `2 MiB`, `512 x 2 MiB`.
pub fn how_large(level: u64, row: &Row, times: &str) -> String {
    let one = bytes(size(level));
    if row.count == 1 {
        one
    } else {
        format!("{} {times} {one}", row.count)
    }
}

pub fn marks(accessed: bool, dirty: bool) -> &'static str {
    match (accessed, dirty) {
        (false, false) => "",
        (true, false) => "accessed",
        (false, true) => "dirty",
        (true, true) => "accessed dirty",
    }
}

/// Where a row's pages, or the tables that it names, lie.
pub fn places(one: &str, row: &Row) -> String {
    let address = row.address;
    match row.addresses {
        Addresses::One => format!("{one} at {address:#x}"),
        Addresses::Same => format!("{one}s, all at {address:#x}"),
        Addresses::Onward => format!("{one}s from {address:#x} on"),
        Addresses::Various => format!("{one}s, the first at {address:#x}"),
    }
}

/// The window, and where its bytes lie.
pub fn window(picture: &Picture) -> String {
    let Picture { origin, len, .. } = *picture;
    format!("{} from physical {origin:#x} on", bytes(len))
}

/// Entries of each kind, in the tables that are drawn.
pub fn summary(picture: &Picture) -> String {
    let rows = || picture.tables.iter().flat_map(|table| table.rows.iter().map(move |row| (table, row)));
    let entries = |is: &dyn Fn(&Table, &Row) -> bool| -> u64 {
        rows().filter(|(table, row)| is(table, row)).map(|(_, row)| row.count).sum()
    };
    let mut parts = vec![count(picture.tables.len() as u64, "table", "tables")];
    for level in [2, 1, 0] {
        let pages = entries(&|table, row| table.level == level && matches!(row.kind, Kind::Page { .. }));
        if pages > 0 {
            parts.push(count(
                pages,
                &format!("page of {}", bytes(size(level))),
                &format!("pages of {}", bytes(size(level))),
            ));
        }
    }
    let damaged = entries(&|_, row| row.kind == Kind::Damaged);
    if damaged > 0 {
        parts.push(count(damaged, "damaged entry", "damaged entries"));
    }
    let outside = entries(&|_, row| matches!(row.kind, Kind::Outside { .. }));
    if outside > 0 {
        parts.push(count(outside, "way out of the window", "ways out of the window"));
    }
    let more = if is_cut(picture) { "; and more, which --rows and --tables let in" } else { "" };
    format!("{}{more}", parts.join(", "))
}

fn is_cut(picture: &Picture) -> bool {
    let rows = |table: &Table| table.more > 0 || table.rows.iter().any(|row| row.below == Below::NotDrawn);
    picture.tables.iter().any(rows)
}
