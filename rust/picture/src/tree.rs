//! The tables below a root, each read once at each level, from the top down. Tables that name themselves, and windows made to be hard,
//! end here: there are four levels, and no more tables are drawn than the limits say.

use crate::rows::{first, rows, size, Below, Kind, Row};
use std::collections::HashMap;
use tablepath::{entry, Entry};

/// The level of a root's entries; that of the last table's is 0.
pub const ROOT: u64 = 3;

/// Bytes of physical memory, and the physical address of the first.
#[derive(Clone, Copy)]
pub struct Window<'a> {
    pub bytes: &'a [u8],
    pub origin: u64,
}

/// How much is drawn: rows of one table, and tables.
#[derive(Clone, Copy)]
pub struct Limits {
    pub rows: usize,
    pub tables: usize,
}

impl Default for Limits {
    fn default() -> Limits {
        Limits { rows: 40, tables: 64 }
    }
}

pub struct Table {
    /// Of its entries.
    pub level: u64,
    pub address: u64,
    /// The first address that goes through it, by the way on which it is drawn.
    pub base: u64,
    pub rows: Vec<Row>,
    /// Rows that are not drawn.
    pub more: usize,
}

impl Table {
    fn unread(level: u64, address: u64, base: u64) -> Table {
        Table { level, address, base, rows: vec![], more: 0 }
    }

    /// The first and the last address of a row.
    pub fn range(&self, row: &Row) -> (u64, u64) {
        let first = first(self.level, self.base, row.index);
        (first, first + (row.count * size(self.level) - 1))
    }
}

pub struct Picture {
    pub origin: u64,
    pub len: u64,
    /// Its address alone, of what CR3 holds.
    pub root: u64,
    /// The root first; empty where the root is not in the window.
    pub tables: Vec<Table>,
}

impl Picture {
    /// The tables below this root, which is given as in CR3.
    pub fn of(window: Window, root: u64, limits: Limits) -> Picture {
        let Window { bytes, origin } = window;
        let address = root & 0xf_ffff_ffff_f000;
        let mut picture = Picture { origin, len: bytes.len() as u64, root: address, tables: vec![] };
        if entry(bytes, origin, root, ROOT, 0) != Entry::Outside {
            picture.tables.push(Table::unread(ROOT, address, 0));
        }
        let mut known = HashMap::from([((ROOT, address), 0)]);
        let mut next = 0;
        while next < picture.tables.len() {
            picture.read(next, window, root, limits, &mut known);
            next += 1;
        }
        picture
    }

    fn read(
        &mut self,
        number: usize,
        window: Window,
        root: u64,
        limits: Limits,
        known: &mut HashMap<(u64, u64), usize>,
    ) {
        let Table { level, address, base, .. } = self.tables[number];
        let mut rows = rows(window, root, level, address, base, limits.rows);
        let more = rows.len().saturating_sub(limits.rows);
        rows.truncate(limits.rows);
        for row in rows.iter_mut().filter(|row| matches!(row.kind, Kind::Table { .. })) {
            let below = (level - 1, row.address);
            row.below = match known.get(&below) {
                Some(number) => Below::Again(*number),
                None if self.tables.len() < limits.tables => {
                    known.insert(below, self.tables.len());
                    self.tables.push(Table::unread(level - 1, row.address, first(level, base, row.index)));
                    Below::Here(self.tables.len() - 1)
                }
                None => Below::NotDrawn,
            };
        }
        (self.tables[number].rows, self.tables[number].more) = (rows, more);
    }
}
