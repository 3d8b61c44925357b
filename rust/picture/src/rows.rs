//! The entries of one table that say something, with neighbours that are alike folded into one row.

use crate::tree::{Window, ROOT};
use tablepath::{entry, look_up, Entry, Found, Rights};

pub const ENTRIES: u64 = 512;

/// What one entry of this level covers.
pub fn size(level: u64) -> u64 {
    4096 << (9 * level)
}

/// The first entry of a root that is of the upper half of the addresses.
const UPPER: u64 = ENTRIES / 2;

/// The first address of an entry, in a table whose first one is `base`: canonical, as the machine has it.
pub fn first(level: u64, base: u64, index: u64) -> u64 {
    let high = if level == ROOT && index >= UPPER { 0xffff << 48 } else { 0 };
    base + index * size(level) + high
}

#[derive(Clone, Copy, PartialEq, Eq, Debug)]
pub enum Kind {
    Page {
        rights: Rights,
        accessed: bool,
        dirty: bool,
    },
    Table {
        rights: Rights,
        accessed: bool,
    },
    /// It names a table that is not in the window.
    Outside {
        rights: Rights,
        accessed: bool,
    },
    /// It is present, but reserved bits are set: it means nothing.
    Damaged,
}

/// How the addresses go on that the entries of a row name.
#[derive(Clone, Copy, PartialEq, Eq, Debug)]
pub enum Addresses {
    One,
    Same,
    /// Each where the one before it ends.
    Onward,
    Various,
}

/// The table that a row's entries name.
#[derive(Clone, Copy, PartialEq, Eq, Debug)]
pub enum Below {
    Nothing,
    /// It is drawn here, or was drawn already: its number.
    Here(usize),
    Again(usize),
    /// There is a limit.
    NotDrawn,
}

#[derive(Clone, Debug)]
pub struct Row {
    pub index: u64,
    pub count: u64,
    pub kind: Kind,
    /// Of the first entry's page or table.
    pub address: u64,
    pub addresses: Addresses,
    /// Of a page: what every entry of the way grants, as the library's look-up has it.
    pub way: Option<Rights>,
    pub below: Below,
    last: u64,
}

impl Row {
    fn new(index: u64, kind: Kind, address: u64) -> Row {
        let addresses = Addresses::One;
        Row { index, count: 1, kind, address, addresses, way: None, below: Below::Nothing, last: address }
    }

    /// The entry joins the row, where it is its neighbour and alike; `any`: whatever addresses pages are at.
    fn takes(&mut self, next: &Row, step: u64, any: bool) -> bool {
        if next.index != self.index + self.count || next.kind != self.kind {
            return false;
        }
        let goes = match next.address {
            same if same == self.last => Addresses::Same,
            onward if onward == self.last + step => Addresses::Onward,
            _ => Addresses::Various,
        };
        let addresses =
            if self.addresses == Addresses::One || self.addresses == goes { goes } else { Addresses::Various };
        let alike = match self.kind {
            Kind::Page { .. } => any || addresses != Addresses::Various,
            Kind::Table { .. } => addresses == Addresses::Same,
            Kind::Outside { .. } | Kind::Damaged => true,
        };
        if alike {
            (self.addresses, self.last, self.count) = (addresses, next.address, self.count + 1);
        }
        alike
    }
}

/// What the entry says, where it says something.
fn said(window: Window, level: u64, table: u64, index: u64) -> Option<Row> {
    let Window { bytes, origin } = window;
    match entry(bytes, origin, table, level, index) {
        Entry::Absent | Entry::Outside => None,
        Entry::Damaged => Some(Row::new(index, Kind::Damaged, 0)),
        Entry::Page { frame, rights, accessed, dirty } => {
            Some(Row::new(index, Kind::Page { rights, accessed, dirty }, frame))
        }
        Entry::Table { address, rights, accessed } => {
            let kind = match entry(bytes, origin, address, level - 1, 0) {
                Entry::Outside => Kind::Outside { rights, accessed },
                _ => Kind::Table { rights, accessed },
            };
            Some(Row::new(index, kind, address))
        }
    }
}

fn folded(entries: &[Row], level: u64, any: bool) -> Vec<Row> {
    let mut rows: Vec<Row> = vec![];
    for entry in entries {
        let step = if matches!(entry.kind, Kind::Page { .. }) { size(level) } else { 4096 };
        // Between the halves there are no addresses.
        let apart = level == ROOT && entry.index == UPPER;
        if apart || !rows.last_mut().is_some_and(|row| row.takes(entry, step, any)) {
            rows.push(entry.clone());
        }
    }
    rows
}

/// The rows of a table, of which the first entry covers the addresses from `base` on. Where they are more than `most`, pages at various
/// addresses are folded too.
pub fn rows(window: Window, root: u64, level: u64, table: u64, base: u64, most: usize) -> Vec<Row> {
    let entries: Vec<Row> = (0..ENTRIES).filter_map(|index| said(window, level, table, index)).collect();
    let mut rows = folded(&entries, level, false);
    if rows.len() > most {
        rows = folded(&entries, level, true);
    }
    for row in rows.iter_mut().filter(|row| matches!(row.kind, Kind::Page { .. })) {
        if let Found::Page(page) = look_up(window.bytes, window.origin, root, first(level, base, row.index)) {
            row.way = Some(page.rights);
        }
    }
    rows
}
