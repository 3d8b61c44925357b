//! The test can fail: each of these wrong variants of the checked baseline has to be found, and shown by a few steps.
//! Each does as the baseline does, and then goes wrong in one place.

use model::{walk, Read, Window};
use operations::audit::lists;
use operations::baselines::Checked;
use operations::cover::{Cover, Sort};
use operations::layout::{ASIDE, FREE, HEAD, HEADER, ROOT, TICKETS};
use operations::ledger::{is_address, is_both};
use operations::shrink::shrink;
use operations::{reasons, test, Created, LookedUp, Mapped, Operations, Protected, Space, Told, Unmapped};

const SEED: u64 = 0x7ab1_e9a8;
const REQUESTS: u64 = 100_000;
/// As many as show the most that takes several: two tickets, the first of which is told.
const MOST_STEPS: usize = 5;
const LOWER: u64 = 1 << 47;
const UPPER: u64 = 0xffff_8000_0000_0000;

#[derive(Clone, Copy, PartialEq, Eq, Debug)]
enum Flaw {
    Sound,
    // create
    RootNotCleared,
    OnePageLost,
    ThreePagesRefused,
    LengthNotAsked,
    MarkForgotten,
    RootNotNamed,
    LastCountLeft,
    // map
    OverlapByBases,
    LastPageRefused,
    NotCleared,
    LinkGrantsLess,
    Bit7OfSmall,
    NoexecLost,
    FrameBelowMeets,
    FrameBeforePoolRefused,
    RoomTooLate,
    LastPagesKept,
    TakenTwice,
    FreeNotCounted,
    TablesNotCounted,
    RangeBeforeAlignment,
    LastOfLowerRefused,
    FirstOfUpperRefused,
    StrippedMapped,
    HoleMapped,
    SpaceBeforeSize,
    ReservedIsOverlap,
    OutsideTouched,
    BothMapped,
    WritableNotMapped,
    BothBeforeRights,
    BothBeforeRange,
    BothAfterSpace,
    BothAfterFrame,
    BothAfterOverlap,
    BothAfterRoom,
    // unmap
    EmptyLeftLinked,
    OnlyOneUnlinked,
    NotEmptyUnlinked,
    RootSetAside,
    FreedAtOnce,
    AsideTopDown,
    TicketOffByOne,
    FrameNotAnswered,
    CoveringUnmapped,
    HoleUnmapped,
    NothingUnmappedInHole,
    LastPageKept,
    OnlyPresentCleared,
    ClearedBeforeBook,
    OldPageNotUnmapped,
    // protect
    DirtyCleared,
    AccessedCleared,
    RightsOnlyGrow,
    UpperProtected,
    CoveringProtected,
    HoleProtected,
    NothingProtectedInHole,
    AsideTouched,
    BothProtected,
    BothAfterSpaceProtected,
    BothAfterBaseProtected,
    BothAfterPageProtected,
    OldPageNotProtected,
    // told
    AllReleased,
    OneMoreReleased,
    UnknownReleasesAll,
    OldTicketUnknown,
    TicketsNotCounted,
    // look_up
    LastAddressLost,
    NoAddressIsNothing,
    HoleFound,
    BaseStripped,
    OldPageNotFound,
    // spaces and reasons
    RootRounded,
    PoolRounded,
    StrayIsNothing,
    BadBookIsNoBook,
    BadListIsNoRoom,
    OtherRootTaken,
    StopsAtStray,
}
use Flaw::*;

struct Flawed(Flaw);

/// The address with the same low 48 bits.
fn extended(va: u64) -> u64 {
    ((va << 16) as i64 >> 16) as u64
}

/// Words of the memory, by physical address.
struct Words<'a> {
    mem: &'a mut [u8],
    space: Space,
}

impl Words<'_> {
    fn at(&self, address: u64) -> usize {
        (address - self.space.origin) as usize
    }

    fn get(&self, address: u64) -> u64 {
        u64::from_le_bytes(self.mem[self.at(address)..][..8].try_into().unwrap())
    }

    fn put(&mut self, address: u64, word: u64) {
        let at = self.at(address);
        self.mem[at..at + 8].copy_from_slice(&word.to_le_bytes());
    }

    fn book(&self, word: u64) -> u64 {
        self.get(self.space.pool + 8 * word)
    }

    fn put_book(&mut self, word: u64, to: u64) {
        self.put(self.space.pool + 8 * word, to);
    }

    /// The word of the book that lists the page at this position.
    fn slot(&self, position: u64) -> u64 {
        HEADER + (self.book(HEAD) + position) % self.space.pages
    }

    /// The entries on the way of an address, from the root's on.
    fn way(&self, va: u64) -> Vec<Read> {
        let window = Window { bytes: self.mem, origin: self.space.origin };
        walk(window, self.space.root, va).way.into_iter().flatten().collect()
    }

    /// The pages that are listed as free, the oldest first, by address.
    fn free(&self) -> Vec<u64> {
        lists(self.mem, &self.space).free.iter().map(|page| page * 4096).collect()
    }
}

fn words(mem: &mut [u8], space: Space) -> Words<'_> {
    Words { mem, space }
}

impl Flawed {
    /// Where a page that covers the address starts.
    fn covering(&self, mem: &[u8], space: Space, va: u64) -> Option<u64> {
        let found = Checked.look_up(mem, space.origin, space.root, va);
        (found.kind == 1).then_some(found.base)
    }

    fn reason(&self, reason: u64) -> u64 {
        match (self.0, reason) {
            (StrayIsNothing, reasons::STRAY) => reasons::NOTHING_STARTS,
            (BadBookIsNoBook, reasons::BAD_BOOK) => reasons::NO_BOOK,
            (BadListIsNoRoom, reasons::BAD_LIST) => reasons::NO_ROOM,
            (StopsAtStray, reasons::STRAY) => panic!("a stray way"),
            _ => reason,
        }
    }

    fn space(&self, mut space: Space) -> Space {
        match self.0 {
            RootRounded => space.root = space.root / 4096 * 4096,
            PoolRounded => space.pool = space.pool / 4096 * 4096,
            _ => {}
        }
        space
    }

    /// What goes wrong after a page was mapped.
    fn after_map(&self, before: &[u8], words: &mut Words, base: u64, size: u64, tables: u64) {
        let way = words.way(base);
        let new = &way[way.len() - 1 - tables as usize..];
        let old = |words: &Words, address: u64| {
            let at = words.at(address);
            u64::from_le_bytes(before[at..at + 8].try_into().unwrap())
        };
        match self.0 {
            NotCleared => {
                for entry in &new[1..] {
                    let page = entry.address / 4096 * 4096;
                    for address in (page..page + 4096).step_by(8).filter(|address| *address != entry.address) {
                        words.put(address, old(words, address));
                    }
                }
            }
            LinkGrantsLess if tables > 0 => words.put(new[0].address, new[0].word & !4),
            Bit7OfSmall if size == 4096 => words.put(new[tables as usize].address, new[tables as usize].word | 128),
            TakenTwice | FreeNotCounted => {
                let head = old(words, words.space.pool + 8 * HEAD);
                let free = old(words, words.space.pool + 8 * FREE);
                words.put_book(FREE, free);
                if self.0 == TakenTwice {
                    words.put_book(HEAD, head);
                }
            }
            OutsideTouched => {
                if let Some(byte) = words.at(words.space.pool).checked_sub(1) {
                    words.mem[byte] ^= 1;
                }
            }
            _ => {}
        }
    }

    /// What goes wrong after a page was unmapped; `way` is what led to it.
    fn after_unmap(&self, before: &[u8], words: &mut Words, way: &[Read], answer: &mut Unmapped) {
        let last = way[way.len() - 1];
        match self.0 {
            EmptyLeftLinked if answer.aside > 0 => {
                words.mem.copy_from_slice(before);
                words.put(last.address, 0);
                (answer.aside, answer.ticket) = (0, answer.ticket - answer.aside);
            }
            OnlyOneUnlinked if answer.aside > 1 => {
                words.mem.copy_from_slice(before);
                words.put(last.address, 0);
                words.put(way[way.len() - 2].address, 0);
                let aside = words.book(ASIDE);
                words.put_book(words.slot(words.book(FREE) + aside), last.address / 4096);
                words.put_book(ASIDE, aside + 1);
                (answer.aside, answer.ticket) = (1, words.book(TICKETS) + aside + 1);
            }
            NotEmptyUnlinked if answer.aside == 0 && way.len() > 1 => words.put(way[way.len() - 2].address, 0),
            RootSetAside if answer.aside as usize == way.len() - 1 => {
                let root = words.space.root;
                if (0..512).all(|index| words.get(root + 8 * index) == 0) {
                    let aside = words.book(ASIDE);
                    words.put_book(words.slot(words.book(FREE) + aside), root / 4096);
                    words.put_book(ASIDE, aside + 1);
                }
            }
            AsideTopDown if answer.aside > 1 => {
                let end = words.book(FREE) + words.book(ASIDE);
                let (one, other) = (words.slot(end - 1), words.slot(end - 2));
                let (first, second) = (words.book(one), words.book(other));
                words.put_book(one, second);
                words.put_book(other, first);
            }
            OnlyPresentCleared => words.put(last.address, last.word & !1),
            TicketOffByOne => answer.ticket += u64::from(answer.ticket > 0),
            FrameNotAnswered => answer.frame = 0,
            FreedAtOnce if answer.ticket > 0 => {
                Checked.told(words.mem, words.space, answer.ticket);
            }
            _ => {}
        }
    }
}

impl Operations for Flawed {
    fn create(&self, mem: &mut [u8], origin: u64, pool: u64, pages: u64) -> Created {
        let before = mem.to_vec();
        let len = if self.0 == LengthNotAsked { mem.len() / 4096 * 4096 } else { mem.len() };
        if self.0 == ThreePagesRefused && pages == 3 {
            return Created { reason: reasons::POOL_SMALL, root: 0 };
        }
        let answer = Checked.create(&mut mem[..len], origin, pool, pages);
        if answer.reason == reasons::DONE {
            let mut words = words(mem, Space { origin, pool, pages, root: answer.root });
            match self.0 {
                RootNotCleared => {
                    let at = words.at(answer.root);
                    words.mem[at..at + 4096].copy_from_slice(&before[at..at + 4096]);
                }
                OnePageLost => words.put_book(FREE, words.book(FREE) - 1),
                MarkForgotten => words.put_book(0, 0),
                RootNotNamed => words.put_book(ROOT, 0),
                LastCountLeft => {
                    let last = words.at(pool + 8 * (HEADER + 2 * pages - 1));
                    words.mem[last..last + 8].copy_from_slice(&before[last..last + 8]);
                }
                _ => {}
            }
        }
        answer
    }

    fn map(&self, mem: &mut [u8], space: Space, base: u64, frame: u64, size: u64, rights: u64) -> Mapped {
        let before = mem.to_vec();
        let space = self.space(space);
        let granted = if self.0 == NoexecLost { rights & 3 } else { rights };
        let refused = |reason| Mapped { reason, tables: 0 };
        let mut answer = Checked.map(mem, space, base, frame, size, granted);
        answer.reason = self.reason(answer.reason);
        let bits = (rights & 3) << 1 | (rights & 4) << 61 | if size > 4096 { 129 } else { 1 };
        match (self.0, answer.reason) {
            (OverlapByBases, reasons::OVERLAP) if self.covering(mem, space, base).is_none() => {
                let mut words = words(mem, space);
                let level = [4096, 1 << 21, 1 << 30].iter().position(|each| *each == size).unwrap();
                let entry = words.way(base)[3 - level];
                words.put(entry.address, frame | bits);
                return refused(reasons::DONE);
            }
            (FrameBelowMeets, reasons::FRAME_IN_POOL) if frame < space.pool => {
                answer = Checked.map(mem, space, base, (1 << 52) - size, size, rights);
                if answer.reason == reasons::DONE {
                    let mut words = words(mem, space);
                    let entry = *words.way(base).last().unwrap();
                    words.put(entry.address, frame | bits);
                }
                return answer;
            }
            (RoomTooLate, reasons::NO_ROOM) => {
                let mut words = words(mem, space);
                if let Some(page) = words.free().first() {
                    words.put(*page + 8, 0);
                }
            }
            (RangeBeforeAlignment, reasons::BASE_UNALIGNED) if !is_address(base) => {
                return refused(reasons::BASE_RANGE)
            }
            (StrippedMapped, reasons::BASE_RANGE) if base < 1 << 48 => {
                return Checked.map(mem, space, extended(base), frame, size, rights)
            }
            (HoleMapped, reasons::BASE_RANGE) => return Checked.map(mem, space, extended(base), frame, size, rights),
            (SpaceBeforeSize, reasons::SIZE..=reasons::FRAME_RANGE) => {
                let other = Checked.map(&mut before.clone(), space, 0, (1 << 52) - 4096, 4096, 0);
                if (reasons::POOL_UNALIGNED..=reasons::BAD_ROOT).contains(&other.reason) {
                    return refused(other.reason);
                }
            }
            (BothBeforeRights, reasons::RIGHTS) if rights & 5 == 1 => return refused(reasons::WRITE_EXECUTE),
            (BothBeforeRange, reasons::BASE_RANGE | reasons::FRAME_RANGE) if is_both(rights) => {
                return refused(reasons::WRITE_EXECUTE)
            }
            (BothMapped, reasons::WRITE_EXECUTE) => {
                answer = Checked.map(mem, space, base, frame, size, rights | 4);
                if answer.reason == reasons::DONE {
                    let mut words = words(mem, space);
                    let entry = *words.way(base).last().unwrap();
                    words.put(entry.address, frame | bits);
                }
                return answer;
            }
            // What is tested too early, of the same page with other rights.
            (_, reasons::WRITE_EXECUTE) => {
                let other = Checked.map(&mut before.clone(), space, base, frame, size, rights | 4).reason;
                let early = match self.0 {
                    BothAfterSpace => (reasons::POOL_UNALIGNED..=reasons::BAD_BOOK).contains(&other),
                    BothAfterFrame => other == reasons::FRAME_IN_POOL,
                    BothAfterOverlap => other == reasons::OVERLAP,
                    BothAfterRoom => other == reasons::NO_ROOM,
                    _ => false,
                };
                if early {
                    return refused(other);
                }
            }
            (_, reasons::DONE) => {
                let mut words = words(mem, space);
                let undone = match self.0 {
                    LastPageRefused if base.wrapping_add(size) == 0 => reasons::BASE_RANGE,
                    LastOfLowerRefused if base.wrapping_add(size) == LOWER => reasons::BASE_RANGE,
                    FirstOfUpperRefused if base == UPPER => reasons::BASE_RANGE,
                    WritableNotMapped if rights & 1 == 1 => reasons::WRITE_EXECUTE,
                    FrameBeforePoolRefused if frame + size == space.pool => reasons::FRAME_IN_POOL,
                    LastPagesKept if answer.tables > 0 && words.book(FREE) == 0 => reasons::NO_ROOM,
                    ReservedIsOverlap => {
                        let entry = words.way(base)[words.way(base).len() - 1 - answer.tables as usize];
                        let at = words.at(entry.address);
                        if before[at] & 1 == 1 {
                            reasons::OVERLAP
                        } else {
                            reasons::DONE
                        }
                    }
                    _ => reasons::DONE,
                };
                if undone != reasons::DONE {
                    mem.copy_from_slice(&before);
                    return refused(undone);
                }
                // Where bytes are damaged, the way may not lead to the page.
                if words.way(base).len() > answer.tables as usize {
                    self.after_map(&before, &mut words, base, size, answer.tables);
                }
                if self.0 == TablesNotCounted {
                    answer.tables = 0;
                }
            }
            _ => {}
        }
        answer
    }

    fn unmap(&self, mem: &mut [u8], space: Space, base: u64) -> Unmapped {
        let before = mem.to_vec();
        let space = self.space(space);
        let sound = space.refused(mem.len()) == 0;
        let way = if sound { words(mem, space).way(base) } else { vec![] };
        let old = Checked.look_up(mem, space.origin, space.root, base).rights;
        let mut answer = Checked.unmap(mem, space, base);
        answer.reason = self.reason(answer.reason);
        match (self.0, answer.reason) {
            (CoveringUnmapped, reasons::NOTHING_STARTS) => {
                if let Some(start) = self.covering(mem, space, base) {
                    return Checked.unmap(mem, space, start);
                }
            }
            (HoleUnmapped, reasons::BASE_RANGE) => return Checked.unmap(mem, space, extended(base)),
            (NothingUnmappedInHole, reasons::BASE_RANGE) => answer.reason = reasons::NOTHING_STARTS,
            (OldPageNotUnmapped, reasons::DONE) if is_both(old) => {
                mem.copy_from_slice(&before);
                return Unmapped { reason: reasons::WRITE_EXECUTE, ..Unmapped::default() };
            }
            (LastPageKept, reasons::DONE) if base.wrapping_add(answer.size) == 0 => {
                mem.copy_from_slice(&before);
                return Unmapped { reason: reasons::NOTHING_STARTS, ..Unmapped::default() };
            }
            (ClearedBeforeBook, reasons::NO_BOOK..=reasons::BAD_BOOK) => {
                words(mem, space).put(way[way.len() - 1].address, 0)
            }
            (_, reasons::DONE) => self.after_unmap(&before, &mut words(mem, space), &way, &mut answer),
            _ => {}
        }
        answer
    }

    fn protect(&self, mem: &mut [u8], space: Space, base: u64, rights: u64) -> Protected {
        let space = self.space(space);
        let old = Checked.look_up(mem, space.origin, space.root, base).rights;
        let rights = if self.0 == RightsOnlyGrow { rights | old } else { rights };
        let before = mem.to_vec();
        let refused = |reason| Protected { reason, ..Protected::default() };
        let mut answer = Checked.protect(mem, space, base, rights);
        answer.reason = self.reason(answer.reason);
        if answer.reason == reasons::WRITE_EXECUTE {
            // What is tested too early, of the same page with other rights.
            let other = Checked.protect(&mut before.clone(), space, base, rights | 4).reason;
            let early = match self.0 {
                BothAfterSpaceProtected => (reasons::POOL_UNALIGNED..=reasons::BAD_BOOK).contains(&other),
                BothAfterBaseProtected => other == reasons::BASE_RANGE,
                BothAfterPageProtected => other == reasons::NOTHING_STARTS,
                _ => false,
            };
            if early {
                return refused(other);
            }
            if self.0 == BothProtected {
                answer = Checked.protect(mem, space, base, rights | 4);
                if answer.reason == reasons::DONE {
                    let mut words = words(mem, space);
                    let entry = *words.way(base).last().unwrap();
                    words.put(entry.address, entry.word & !(1 << 63));
                }
                return answer;
            }
        }
        if answer.reason == reasons::DONE && self.0 == OldPageNotProtected && is_both(old) {
            mem.copy_from_slice(&before);
            return refused(reasons::WRITE_EXECUTE);
        }
        if answer.reason == reasons::NOTHING_STARTS && self.0 == CoveringProtected {
            if let Some(start) = self.covering(mem, space, base) {
                return Checked.protect(mem, space, start, rights);
            }
        }
        if answer.reason == reasons::BASE_RANGE && self.0 == HoleProtected {
            return Checked.protect(mem, space, extended(base), rights);
        }
        if answer.reason == reasons::BASE_RANGE && self.0 == NothingProtectedInHole {
            answer.reason = reasons::NOTHING_STARTS;
        }
        if answer.reason == reasons::DONE {
            let mut words = words(mem, space);
            let way = words.way(base);
            let last = way[way.len() - 1];
            match self.0 {
                DirtyCleared => words.put(last.address, last.word & !(1 << 6)),
                AccessedCleared => words.put(last.address, last.word & !(1 << 5)),
                UpperProtected if rights & 1 == 0 => {
                    let upper = way[way.len() - 2];
                    words.put(upper.address, upper.word & !2);
                }
                AsideTouched => {
                    if let Some(page) = lists(words.mem, &space).aside.first() {
                        words.put(page * 4096, 0xa51de);
                    }
                }
                _ => {}
            }
        }
        answer
    }

    fn told(&self, mem: &mut [u8], space: Space, ticket: u64) -> Told {
        let space = self.space(space);
        if self.0 == OtherRootTaken && space.refused(mem.len()) == 0 {
            let named = words(mem, space).book(ROOT);
            words(mem, space).put_book(ROOT, space.root / 4096);
            let answer = Checked.told(mem, space, ticket);
            words(mem, space).put_book(ROOT, named);
            return answer;
        }
        let mut answer = Checked.told(&mut mem.to_vec(), space, ticket);
        let mut asked = ticket;
        if answer.reason == reasons::DONE || answer.reason == reasons::UNKNOWN {
            let words = words(mem, space);
            let (last, all) = (words.book(TICKETS), words.book(TICKETS) + words.book(ASIDE));
            match self.0 {
                AllReleased if answer.released > 0 => asked = all,
                OneMoreReleased if answer.released > 0 => asked = all.min(ticket + 1),
                UnknownReleasesAll if answer.reason == reasons::UNKNOWN => asked = all,
                OldTicketUnknown if ticket < last => return Told { reason: reasons::UNKNOWN, released: 0 },
                _ => {}
            }
        }
        let old = if answer.reason == reasons::DONE { words(mem, space).book(TICKETS) } else { 0 };
        answer = Checked.told(mem, space, asked);
        answer.reason = self.reason(answer.reason);
        if answer.reason == reasons::DONE && self.0 == TicketsNotCounted {
            words(mem, space).put_book(TICKETS, old);
        }
        answer
    }

    fn look_up(&self, mem: &[u8], origin: u64, root: u64, va: u64) -> LookedUp {
        if self.0 == LastAddressLost && va == u64::MAX {
            return LookedUp::default();
        }
        let mut answer = Checked.look_up(mem, origin, root, va);
        match self.0 {
            NoAddressIsNothing if answer.kind == 5 => answer.kind = 0,
            HoleFound if answer.kind == 5 => answer = Checked.look_up(mem, origin, root, extended(va)),
            BaseStripped => answer.base %= 1 << 48,
            OldPageNotFound if is_both(answer.rights) => answer = LookedUp::default(),
            _ => {}
        }
        answer
    }
}

/// Found within the requests of a run, and then shown by a few steps.
fn found(flaw: Flaw, sort: Sort) {
    let of = Flawed(flaw);
    let mut cover = Cover::default();
    let (scene, failure) =
        test(&of, None, sort, SEED, REQUESTS, &mut cover).expect("the test sees nothing that is wrong");
    let small = shrink(&of, None, failure);
    println!("scene {scene}, request {}:\n  {}", cover.asked, small.setup);
    small.steps.iter().for_each(|step| println!("  {step}"));
    println!("  {}", small.trouble);
    assert!(small.steps.len() <= MOST_STEPS, "{} steps are left", small.steps.len());
}

macro_rules! flaws {
    ($($test:ident: $flaw:ident, $sort:ident;)*) => { $(#[test] fn $test() { found($flaw, Sort::$sort) })* };
}

// With the sort of requests that finds it.
flaws! {
    root_not_cleared: RootNotCleared, Sound;
    one_page_lost: OnePageLost, Sound;
    three_pages_refused: ThreePagesRefused, Sound;
    length_not_asked: LengthNotAsked, Sound;
    mark_forgotten: MarkForgotten, Sound;
    root_not_named: RootNotNamed, Sound;
    last_count_left: LastCountLeft, Sound;
    overlap_by_bases: OverlapByBases, Sound;
    last_page_refused: LastPageRefused, Sound;
    not_cleared: NotCleared, Sound;
    link_grants_less: LinkGrantsLess, Sound;
    bit_7_of_small: Bit7OfSmall, Sound;
    noexec_lost: NoexecLost, Sound;
    frame_below_meets: FrameBelowMeets, Sound;
    frame_before_pool_refused: FrameBeforePoolRefused, Sound;
    room_too_late: RoomTooLate, Sound;
    last_pages_kept: LastPagesKept, Sound;
    taken_twice: TakenTwice, Sound;
    free_not_counted: FreeNotCounted, Sound;
    tables_not_counted: TablesNotCounted, Sound;
    range_before_alignment: RangeBeforeAlignment, Sound;
    last_of_lower_refused: LastOfLowerRefused, Sound;
    first_of_upper_refused: FirstOfUpperRefused, Sound;
    stripped_mapped: StrippedMapped, Sound;
    hole_mapped: HoleMapped, Sound;
    space_before_size: SpaceBeforeSize, Sound;
    reserved_is_overlap: ReservedIsOverlap, Damaged;
    outside_touched: OutsideTouched, Sound;
    both_mapped: BothMapped, Sound;
    writable_not_mapped: WritableNotMapped, Sound;
    both_before_rights: BothBeforeRights, Sound;
    both_before_range: BothBeforeRange, Sound;
    both_after_space: BothAfterSpace, Sound;
    both_after_frame: BothAfterFrame, Sound;
    both_after_overlap: BothAfterOverlap, Sound;
    both_after_room: BothAfterRoom, Sound;
    empty_left_linked: EmptyLeftLinked, Sound;
    only_one_unlinked: OnlyOneUnlinked, Sound;
    not_empty_unlinked: NotEmptyUnlinked, Sound;
    root_set_aside: RootSetAside, Sound;
    freed_at_once: FreedAtOnce, Sound;
    aside_top_down: AsideTopDown, Sound;
    ticket_off_by_one: TicketOffByOne, Sound;
    frame_not_answered: FrameNotAnswered, Sound;
    covering_unmapped: CoveringUnmapped, Sound;
    hole_unmapped: HoleUnmapped, Sound;
    nothing_unmapped_in_hole: NothingUnmappedInHole, Sound;
    last_page_kept: LastPageKept, Sound;
    only_present_cleared: OnlyPresentCleared, Sound;
    cleared_before_book: ClearedBeforeBook, Damaged;
    old_page_not_unmapped: OldPageNotUnmapped, Sound;
    dirty_cleared: DirtyCleared, Sound;
    accessed_cleared: AccessedCleared, Sound;
    rights_only_grow: RightsOnlyGrow, Sound;
    upper_protected: UpperProtected, Sound;
    covering_protected: CoveringProtected, Sound;
    hole_protected: HoleProtected, Sound;
    nothing_protected_in_hole: NothingProtectedInHole, Sound;
    aside_touched: AsideTouched, Sound;
    both_protected: BothProtected, Sound;
    both_after_space_protected: BothAfterSpaceProtected, Sound;
    both_after_base_protected: BothAfterBaseProtected, Sound;
    both_after_page_protected: BothAfterPageProtected, Sound;
    old_page_not_protected: OldPageNotProtected, Sound;
    all_released: AllReleased, Sound;
    one_more_released: OneMoreReleased, Sound;
    unknown_releases_all: UnknownReleasesAll, Sound;
    old_ticket_unknown: OldTicketUnknown, Sound;
    tickets_not_counted: TicketsNotCounted, Sound;
    last_address_lost: LastAddressLost, Sound;
    no_address_is_nothing: NoAddressIsNothing, Sound;
    hole_found: HoleFound, Sound;
    base_stripped: BaseStripped, Sound;
    old_page_not_found: OldPageNotFound, Sound;
    root_rounded: RootRounded, Sound;
    pool_rounded: PoolRounded, Sound;
    stray_is_nothing: StrayIsNothing, Damaged;
    bad_book_is_no_book: BadBookIsNoBook, Damaged;
    bad_list_is_no_room: BadListIsNoRoom, Damaged;
    other_root_taken: OtherRootTaken, Damaged;
    stops_at_stray: StopsAtStray, Damaged;
}

/// What is beside is compared too.
#[test]
fn one_beside_that_differs() {
    let wrong = Flawed(DirtyCleared);
    let (_, failure) = test(&Checked, Some(&wrong), Sort::Sound, SEED, REQUESTS, &mut Cover::default())
        .expect("the test sees no difference");
    let small = shrink(&Checked, Some(&wrong), failure);
    assert!(small.trouble.starts_with("beside it: "), "{}", small.trouble);
    assert!(small.steps.len() <= MOST_STEPS, "{} steps are left", small.steps.len());
}

#[test]
fn without_a_flaw_none_is_found() {
    for sort in [Sort::Sound, Sort::Damaged] {
        if let Some((scene, failure)) = test(&Flawed(Sound), None, sort, SEED, 20_000, &mut Cover::default()) {
            panic!("scene {scene}: {}", failure.trouble);
        }
    }
}
