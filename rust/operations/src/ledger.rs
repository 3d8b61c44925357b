//! The model: a plain list of mappings, how many of them pass each table, and how many pages are free and set aside.
//! It never looks at bytes, and knows tables that the operations built; what a damaged book or table does, `due` says.

use crate::space::{create_refused, made};
use crate::{reasons, Answer, Created, LookedUp, Mapped, Protected, Request, Space, Told, Unmapped};
use std::collections::{BTreeMap, VecDeque};

pub const KIB4: u64 = 4 << 10;
pub const MIB2: u64 = 2 << 20;
pub const GIB1: u64 = 1 << 30;
pub const SIZES: [u64; 3] = [KIB4, MIB2, GIB1];
/// What a table covers: the entry that names it does.
const TABLES: [u64; 3] = [MIB2, GIB1, 512 * GIB1];
/// The lower half of the addresses ends here, the upper one begins there; and where physical memory ends.
pub const LOWER: u64 = 0x0000_8000_0000_0000;
pub const UPPER: u64 = 0xffff_8000_0000_0000;
pub const PHYSICAL: u64 = 1 << 52;
/// Both sides of every edge.
pub const EDGES: [u64; 6] = [0, LOWER - 1, LOWER, UPPER - 1, UPPER, u64::MAX];

#[derive(Clone, Copy, PartialEq, Eq, PartialOrd, Ord, Debug)]
pub struct Mapping {
    pub base: u64,
    pub size: u64,
    pub frame: u64,
    pub rights: u64,
}

pub struct Ledger {
    pub space: Space,
    /// The window's.
    len: usize,
    pub mappings: Vec<Mapping>,
    /// By what the table covers and where that starts: the mappings below it. The root is not among them.
    tables: BTreeMap<(u64, u64), u64>,
    pub free: u64,
    pub aside: u64,
    /// How many pages were released so far.
    pub released: u64,
    /// Tickets that were handed out, the last one last.
    pub tickets: VecDeque<u64>,
}

/// Do the ranges share an address? Either may end at 2^64.
fn meet(start: u64, size: u64, other: u64, other_size: u64) -> bool {
    start <= other + (other_size - 1) && other <= start + (size - 1)
}

pub fn is_address(va: u64) -> bool {
    !(LOWER..UPPER).contains(&va)
}

impl Ledger {
    /// A pool that was just made, after so many pages had been released in it.
    pub fn new(len: usize, origin: u64, pool: u64, pages: u64, released: u64) -> Ledger {
        let space = made(origin, pool, pages);
        let free = pages - space.book() - 1;
        Ledger {
            space,
            len,
            mappings: vec![],
            tables: BTreeMap::new(),
            free,
            aside: 0,
            released,
            tickets: VecDeque::new(),
        }
    }

    pub fn tables(&self) -> u64 {
        self.tables.len() as u64
    }

    /// The tables that a page needs besides the root, the highest first.
    fn needs(base: u64, size: u64) -> impl Iterator<Item = (u64, u64)> {
        TABLES
            .into_iter()
            .rev()
            .filter(move |covers| *covers > size)
            .map(move |covers| (covers, base / covers * covers))
    }

    /// How many tables are missing for a page.
    pub fn missing(&self, base: u64, size: u64) -> u64 {
        Ledger::needs(base, size).filter(|table| !self.tables.contains_key(table)).count() as u64
    }

    pub fn means(&self, va: u64) -> LookedUp {
        if !is_address(va) {
            return LookedUp { kind: 5, ..LookedUp::default() };
        }
        match self.mappings.iter().find(|page| page.base <= va && va - page.base < page.size) {
            None => LookedUp::default(),
            Some(Mapping { base, size, frame, rights }) => {
                LookedUp { kind: 1, base: *base, size: *size, frame: *frame, rights: *rights }
            }
        }
    }

    /// The page at the address is now writable and executable.
    pub fn make_both(&mut self, va: u64) {
        let page = self.mappings.iter_mut().find(|page| page.base <= va && va - page.base < page.size);
        let page = page.expect("it is mapped");
        page.rights = page.rights & !4 | 1;
    }

    /// What has to be answered where so many bytes of the window are lent, and then holds. Of a pool that does not begin in ours
    /// nothing is said, where it makes sense: it is not ours.
    pub fn judge(&mut self, request: &Request, lent: usize) -> Option<Answer> {
        let told = match *request {
            Request::Create { origin, pool, pages } => match create_refused(lent, origin, pool, pages) {
                reasons::DONE => return None,
                reason => Err(reason),
            },
            Request::LookUp { origin, root, va } => {
                // Of CR3 only the address counts.
                let address = root % PHYSICAL / KIB4 * KIB4;
                if origin != self.space.origin || address != self.space.root || lent != self.len {
                    return None;
                }
                Ok(Answer::LookedUp(self.means(va)))
            }
            Request::Map { space, base, frame, size, rights } => match asked(base, frame, size, rights) {
                reasons::DONE => match self.standing(space, lent)? {
                    reasons::DONE => self.map(base, frame, size, rights),
                    reason => Err(reason),
                },
                reason => Err(reason),
            },
            Request::Unmap { space, base } => match self.standing(space, lent)? {
                reasons::DONE => self.unmap(base),
                reason => Err(reason),
            },
            Request::Protect { space, base, rights } => match asked_rights(rights) {
                reasons::DONE => match self.standing(space, lent)? {
                    reasons::DONE => self.protect(base, rights),
                    reason => Err(reason),
                },
                reason => Err(reason),
            },
            Request::Told { space, ticket } => match self.standing(space, lent)? {
                reasons::DONE => self.told(ticket),
                reason => Err(reason),
            },
        };
        Some(told.unwrap_or_else(|reason| request.refused(reason)))
    }

    fn standing(&self, space: Space, lent: usize) -> Option<u64> {
        let ours = self.space;
        match space.refused(lent) {
            reason @ reasons::POOL_UNALIGNED..=reasons::POOL_OUTSIDE => Some(reason),
            _ if space.origin != ours.origin => None,
            _ if space.pool != ours.pool => (ours.pool..ours.end()).contains(&space.pool).then_some(reasons::NO_BOOK),
            _ if space.pages != ours.pages => Some(reasons::OTHER_BOOK),
            _ if space.root != ours.root => Some(reasons::BAD_ROOT),
            _ => Some(reasons::DONE),
        }
    }

    fn map(&mut self, base: u64, frame: u64, size: u64, rights: u64) -> Result<Answer, u64> {
        if meet(frame, size, self.space.pool, self.space.pages * KIB4) {
            return Err(reasons::FRAME_IN_POOL);
        }
        if self.mappings.iter().any(|page| meet(base, size, page.base, page.size)) {
            return Err(reasons::OVERLAP);
        }
        let tables = self.missing(base, size);
        if tables > self.free {
            return Err(reasons::NO_ROOM);
        }
        self.free -= tables;
        for table in Ledger::needs(base, size) {
            *self.tables.entry(table).or_insert(0) += 1;
        }
        self.mappings.push(Mapping { base, size, frame, rights });
        Ok(Answer::Mapped(Mapped { reason: 0, tables }))
    }

    fn starts(&self, base: u64) -> Result<usize, u64> {
        if !is_address(base) {
            return Err(reasons::BASE_RANGE);
        }
        self.mappings.iter().position(|page| page.base == base).ok_or(reasons::NOTHING_STARTS)
    }

    fn unmap(&mut self, base: u64) -> Result<Answer, u64> {
        let Mapping { size, frame, .. } = self.mappings.swap_remove(self.starts(base)?);
        let mut aside = 0;
        for table in Ledger::needs(base, size) {
            let passing = self.tables.get_mut(&table).expect("a page has its tables");
            *passing -= 1;
            if *passing == 0 {
                self.tables.remove(&table);
                aside += 1;
            }
        }
        self.aside += aside;
        let ticket = self.released + self.aside;
        if aside > 0 {
            self.tickets.push_back(ticket);
        }
        Ok(Answer::Unmapped(Unmapped { reason: 0, frame, size, aside, ticket }))
    }

    fn protect(&mut self, base: u64, rights: u64) -> Result<Answer, u64> {
        let at = self.starts(base)?;
        let page = &mut self.mappings[at];
        page.rights = rights;
        let ticket = self.released + self.aside;
        Ok(Answer::Protected(Protected { reason: 0, frame: page.frame, size: page.size, ticket }))
    }

    fn told(&mut self, ticket: u64) -> Result<Answer, u64> {
        if ticket > self.released + self.aside {
            return Err(reasons::UNKNOWN);
        }
        let released = ticket.saturating_sub(self.released);
        if released > 0 && ticket > 1 << 62 {
            return Err(reasons::SPENT);
        }
        self.free += released;
        self.aside -= released;
        self.released += released;
        Ok(Answer::Told(Told { reason: 0, released }))
    }
}

/// Why a page cannot be asked for, whatever is mapped.
pub fn asked(base: u64, frame: u64, size: u64, rights: u64) -> u64 {
    match () {
        () if rights > 7 => reasons::RIGHTS,
        () if !SIZES.contains(&size) => reasons::SIZE,
        () if base % size != 0 => reasons::BASE_UNALIGNED,
        () if frame % size != 0 => reasons::FRAME_UNALIGNED,
        () if !is_address(base) => reasons::BASE_RANGE,
        () if frame >= PHYSICAL || frame + size > PHYSICAL => reasons::FRAME_RANGE,
        () => asked_rights(rights),
    }
}

/// Why no page gets these rights.
pub fn asked_rights(rights: u64) -> u64 {
    match () {
        () if rights > 7 => reasons::RIGHTS,
        () if is_both(rights) => reasons::WRITE_EXECUTE,
        () => reasons::DONE,
    }
}

/// Writable, and executable?
pub fn is_both(rights: u64) -> bool {
    [1, 3].contains(&rights)
}

/// What making a pool answers.
pub fn created(len: usize, origin: u64, pool: u64, pages: u64) -> Created {
    match create_refused(len, origin, pool, pages) {
        reasons::DONE => Created { reason: reasons::DONE, root: made(origin, pool, pages).root },
        reason => Created { reason, root: 0 },
    }
}
