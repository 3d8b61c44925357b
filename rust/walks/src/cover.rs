//! What was asked: so that a run which never met a kind of answer, of damage or of window does not pass for a test of it.

use crate::case::Case;
use crate::scene::EDGES;
use crate::words::ADDRESS;
use model::{Answer, End, Kind, Walk};

/// Which page it is by its entry: 1 GiB, 2 MiB, 4 KiB.
const SIZES: [(&str, Kind); 3] = [("1 GiB", Kind::Pdpte), ("2 MiB", Kind::Pde), ("4 KiB", Kind::Pte)];
const KINDS: [(&str, Kind); 4] =
    [("PML4E", Kind::Pml4e), ("PDPTE", Kind::Pdpte), ("PDE", Kind::Pde), ("PTE", Kind::Pte)];

const WINDOWS: [&str; 12] = [
    "no bytes",
    "less than a page",
    "odd length",
    "odd origin",
    "origin no multiple of 4096",
    "page found, odd origin",
    "page found, odd length",
    "page found, origin 0",
    "page found, up to 2^52",
    "across 2^52",
    "from 2^52 on",
    "across 2^64",
];

const WAYS_OUT: [&str; 4] = ["table below", "table across the start", "table across the end", "table above"];

#[derive(Default)]
pub struct Cover {
    pub pairs: u64,
    no_address: u64,
    /// Addresses of the upper half, and the edges one by one.
    upper: u64,
    edges: [u64; EDGES.len()],
    /// Pages found in the upper half.
    upper_page: [u64; 4],
    outside: [u64; 4],
    not_present: [u64; 4],
    reserved: [u64; 4],
    page: [u64; 4],
    /// Pages by size and by the three rights.
    rights: [[u64; 8]; 4],
    windows: [u64; 12],
    /// Where the table lies that is not wholly in the window.
    ways_out: [u64; 4],
    /// One table twice on a way.
    again: u64,
    /// A bit that was flipped on the way to a page: by the page's size, the entry, and the bit.
    flips: [[Vec<u64>; 4]; 4],
    flips_cr3: Vec<u64>,
    flips_va: Vec<u64>,
}

/// A kind of thing that was asked, how often, and how often it has to be in a million pairs.
pub struct Line {
    pub name: String,
    pub count: u64,
    pub least: u64,
}

fn add(to: &mut Vec<u64>, bit: u64) {
    to.resize(64, 0);
    to[bit as usize] += 1;
}

fn least_of(bits: &[u64]) -> u64 {
    bits.iter().copied().min().unwrap_or(0)
}

impl Cover {
    pub fn note(&mut self, case: &Case, walk: &Walk) {
        self.pairs += 1;
        match walk.end {
            End::NoAddress => self.no_address += 1,
            _ if case.va >> 63 == 1 => self.upper += 1,
            _ => {}
        }
        if let Some(edge) = EDGES.iter().position(|edge| *edge == case.va) {
            self.edges[edge] += 1;
        }
        match walk.end {
            End::NoAddress => {}
            End::Outside(kind) => {
                self.outside[kind as usize] += 1;
                self.note_way_out(case, walk);
            }
            End::NotPresent(kind) => self.not_present[kind as usize] += 1,
            End::Reserved(kind) => self.reserved[kind as usize] += 1,
            End::Page(kind) => {
                self.page[kind as usize] += 1;
                self.upper_page[kind as usize] += case.va >> 63;
            }
        }
        if let (End::Page(kind), Answer::Page { rights, .. }) = (walk.end, walk.answer) {
            let which = usize::from(rights.writable) + 2 * usize::from(rights.user) + 4 * usize::from(rights.noexec);
            self.rights[kind as usize][which] += 1;
        }
        let tables: Vec<u64> = walk.way.iter().flatten().map(|read| read.address / 4096).collect();
        if (1..tables.len()).any(|step| tables[..step].contains(&tables[step])) {
            self.again += 1;
        }
        self.note_window(case, matches!(walk.end, End::Page(_)));
    }

    fn note_window(&mut self, case: &Case, found: bool) {
        let window = case.window();
        let (origin, len) = (window.origin, window.bytes.len() as u64);
        let end = u128::from(origin) + u128::from(len);
        let holds = [
            len == 0,
            len < 4096,
            len % 2 == 1,
            origin % 2 == 1,
            origin % 4096 != 0,
            found && origin % 2 == 1,
            found && len % 2 == 1,
            found && origin == 0,
            found && end == 1 << 52,
            origin < 1 << 52 && end > 1 << 52,
            origin >= 1 << 52,
            end > 1 << 64,
        ];
        for (count, holds) in self.windows.iter_mut().zip(holds) {
            *count += u64::from(holds);
        }
    }

    fn note_way_out(&mut self, case: &Case, walk: &Walk) {
        let window = case.window();
        let (start, end) = (u128::from(window.origin), u128::from(window.origin) + window.bytes.len() as u128);
        let named = walk.way.iter().flatten().last().map_or(case.cr3, |read| read.word);
        let table = u128::from(named & ADDRESS);
        let which = match () {
            () if table + 4096 <= start => 0,
            () if table < start => 1,
            () if table < end => 2,
            () => 3,
        };
        self.ways_out[which] += 1;
    }

    pub fn flip(&mut self, walk: &Walk, step: usize, bit: u64) {
        if let End::Page(kind) = walk.end {
            add(&mut self.flips[kind as usize][step], bit);
        }
    }

    pub fn flip_cr3(&mut self, walk: &Walk, bit: u64) {
        if let End::Page(_) = walk.end {
            add(&mut self.flips_cr3, bit);
        }
    }

    pub fn flip_va(&mut self, walk: &Walk, bit: u64) {
        if let End::Page(_) = walk.end {
            add(&mut self.flips_va, bit);
        }
    }

    /// How walks ended: each kind of answer, each size, and a failure of each kind at each level that can have it.
    pub fn ends(&self) -> Vec<Line> {
        let mut lines = vec![
            line("no address", self.no_address, 10_000),
            line("of the upper half", self.upper, 200_000),
            line("edge, rarest", least_of(&self.edges), 500),
        ];
        for (name, kind) in SIZES {
            lines.push(line(format!("page of {name}"), self.page[kind as usize], 20_000));
            lines.push(line(format!("page of {name} in the upper half"), self.upper_page[kind as usize], 5_000));
        }
        for (name, kind) in KINDS {
            lines.push(line(format!("{name} not present"), self.not_present[kind as usize], 5_000));
            if kind != Kind::Pte {
                lines.push(line(format!("{name} reserved"), self.reserved[kind as usize], 3_000));
            }
            lines.push(line(format!("{name} outside"), self.outside[kind as usize], 5_000));
        }
        lines
    }

    /// Each set of rights on a page of each size.
    pub fn rights(&self) -> Vec<Line> {
        let rights = |kind: Kind| least_of(&self.rights[kind as usize]);
        SIZES.iter().map(|(name, kind)| line(format!("{name}, rarest of 8"), rights(*kind), 1_000)).collect()
    }

    /// Each bit of each entry on the way to a page of each size, of CR3, and of the address.
    pub fn flips(&self) -> Vec<Line> {
        let mut lines = vec![];
        for (size, last) in SIZES {
            for (name, kind) in &KINDS[..=last as usize] {
                let count = least_of(&self.flips[last as usize][*kind as usize]);
                lines.push(line(format!("{name} to {size}, rarest of 64"), count, 100));
            }
        }
        lines.push(line("CR3, rarest of 64", least_of(&self.flips_cr3), 100));
        lines.push(line("address, rarest of 64", least_of(&self.flips_va), 100));
        lines
    }

    pub fn windows(&self) -> Vec<Line> {
        let mut lines: Vec<Line> =
            WINDOWS.iter().zip(self.windows).map(|(name, count)| line(*name, count, 1_000)).collect();
        lines.extend(WAYS_OUT.iter().zip(self.ways_out).map(|(name, count)| line(*name, count, 1_000)));
        lines.push(line("a table twice on a way", self.again, 10_000));
        lines
    }
}

fn line(name: impl Into<String>, count: u64, least: u64) -> Line {
    Line { name: name.into(), count, least }
}
