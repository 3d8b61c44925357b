//! The walks stepped between single writes, on one thread: each operation's writes are carried out one word at a time, in
//! the order in which they are due, and walks read on in between. The compiled library does the same operation on a copy,
//! at once: what it answers and what it leaves has to be what the single writes leave.

use crate::cache::Upper;
use crate::flaw::Flaw;
use crate::log::Tally;
use crate::memory::Shared;
use crate::onlooker::Onlooker;
use crate::scene::Scene;
use crate::shootdowns::Mailbox;
use crate::writer::Writer;
use model::{walk, Window};
use operations::due::{due, looked_up, Write};
use operations::{Answer, LookedUp, Operations, Request};
use std::collections::BTreeSet;
use std::sync::atomic::{AtomicU64, Ordering::SeqCst};

/// The single writes, in order; a flaw changes the order, or takes one apart.
pub fn singles(memory: Shared, request: &Request, writes: &[Write], flaw: Flaw) -> Vec<(u64, u64)> {
    let mut writes = writes.to_vec();
    if flaw == Flaw::LinkThenClear {
        // They come in pairs, and then the page's own entry.
        for pair in writes.chunks_mut(2) {
            if matches!(pair, [Write::Clear(_), Write::Word(..)]) {
                pair.swap(0, 1);
            }
        }
    }
    if flaw == Flaw::UnlinkThenClear && matches!(request, Request::Unmap { .. }) && writes.len() > 1 {
        writes.swap(0, 1);
    }
    let mut singles = vec![];
    for write in writes {
        match write {
            Write::Clear(page) => singles.extend((0..4096).step_by(8).map(|place| (page + place, 0))),
            Write::Word(at, word) => {
                if flaw == Flaw::Halves {
                    let old = memory.read(at).expect("in the window");
                    singles.push((at, old >> 32 << 32 | word & 0xffff_ffff));
                }
                if flaw == Flaw::ProtectByClearing && matches!(request, Request::Protect { .. }) {
                    singles.push((at, 0));
                }
                singles.push((at, word));
            }
        }
    }
    singles
}

struct Stepped<'a> {
    writer: Writer<'a>,
    memory: Shared,
    clock: &'a AtomicU64,
    /// What each watched address means.
    means: Vec<LookedUp>,
    /// The tables that an entry names, and those that are set aside, which nothing may write.
    linked: BTreeSet<u64>,
    frozen: BTreeSet<u64>,
}

impl Stepped<'_> {
    fn is_table(&self, page: u64) -> bool {
        let space = self.writer.scene.space();
        (space.behind()..space.end()).contains(&page)
    }

    /// By the manual's walk of the bytes as they are.
    fn walked(&self) -> Vec<LookedUp> {
        // SAFETY: all is on one thread.
        let bytes: &[u8] = unsafe { self.memory.lent() };
        let window = Window { bytes, origin: self.memory.origin };
        let mean = |va: &u64| match looked_up(walk(window, self.writer.scene.space().root, *va)) {
            Answer::LookedUp(found) => found,
            other => unreachable!("{other}"),
        };
        self.writer.sight.watched.iter().map(mean).collect()
    }

    /// Writes one word; answers whether that changed what some watched address means.
    fn write(&mut self, at: u64, word: u64) -> Result<bool, String> {
        let page = at / 4096 * 4096;
        if self.frozen.contains(&page) {
            return Err(format!("the word at {at:#x} is written, in a table that is set aside"));
        }
        let old = self.memory.read(at).expect("in the window");
        self.memory.write(at, word);
        if page != self.writer.scene.space().root && !self.linked.contains(&page) {
            return Ok(false);
        }
        // No page that is mapped lies in the pool: these name tables.
        let named = |word: u64| Some(word & 0xf_ffff_ffff_f000).filter(|page| word & 1 == 1 && self.is_table(*page));
        let (cut, link) = (named(old), named(word));
        if cut != link {
            if let Some(cut) = cut {
                self.linked.remove(&cut);
                self.frozen.insert(cut);
            }
            self.linked.extend(link);
        }
        let walked = self.walked();
        let state = self.clock.fetch_add(2, SeqCst) / 2 + 1;
        for (which, means) in walked.iter().enumerate() {
            self.writer.log.note(state, which, *means);
        }
        let changed = walked != self.means;
        self.means = walked;
        Ok(changed)
    }

    fn operation(&mut self, of: &dyn Operations, onlookers: &mut [Onlooker]) -> Result<(), String> {
        let (request, began) = (self.writer.next(), self.clock.load(SeqCst));
        // SAFETY: all is on one thread.
        let bytes: &[u8] = unsafe { self.memory.lent() };
        let due = due(Window { bytes, origin: self.memory.origin }, &request);
        let mut at_once = bytes.to_vec();
        let answer = request.ask(of, &mut at_once);
        let before = self.means.clone();
        let judged = self.writer.scene.ledger.judge(&request, bytes.len()).expect("our own pool");
        if answer != judged || answer != due.answer {
            return Err(format!("{request}: answered\n  {answer}, should be\n  {judged}, and\n  {}", due.answer));
        }
        let watched = &self.writer.sight.watched;
        let after = self.writer.scene.means(watched);
        let mut changes = 0;
        for (at, word) in singles(self.memory, &request, &due.writes, self.writer.flaw) {
            let random = &mut self.writer.scene.random;
            // Few in the midst of a clearing, which is long.
            let pause = word != 0 || at % 4096 == 0 || random.chance(1, 64);
            let reads = if pause { random.below(24) } else { 0 };
            if reads > 0 {
                onlookers.iter_mut().for_each(|onlooker| onlooker.turn(reads));
                self.writer.tally.amid += 1;
            }
            if !self.write(at, word)? {
                continue;
            }
            changes += 1;
            let odd = |which: &usize| self.means[*which] != before[*which] && self.means[*which] != after[*which];
            if let Some(which) = (0..after.len()).find(odd) {
                let (va, means) = (watched[which], self.means[which]);
                return Err(format!("{request}: in its midst {va:#x} means\n  {means:x?}"));
            }
        }
        if self.means != after || changes > 1 {
            return Err(format!("{request}: {changes} of its writes changed what some address means"));
        }
        // SAFETY: as above.
        if unsafe { self.memory.lent() } != &at_once[..] {
            return Err(format!("{request}: the library leaves other bytes"));
        }
        self.writer.note(&request, &answer, began);
        let aside = self.writer.scene.aside(self.memory).into_iter().collect();
        if let Answer::Told(_) = answer {
            // What is seen from here on is seen after the report.
            self.clock.fetch_add(2, SeqCst);
            self.frozen = aside;
        } else if self.frozen != aside {
            return Err(format!("{request}: what is unlinked is not what is set aside"));
        }
        Ok(())
    }

    fn judge(&mut self, onlooker: &mut Onlooker) -> Result<(), String> {
        self.writer.log.judge(&self.writer.sight.watched, &onlooker.seen, &mut self.writer.tally)?;
        onlooker.seen.clear();
        Ok(())
    }
}

/// So many operations in one pool, beside two processors: INVLPG drops all upper entries of the one, and of the other those
/// that lead to the address.
pub fn run(of: &dyn Operations, seed: u64, operations: u64, caches: bool, flaw: Flaw) -> Result<Tally, String> {
    let (scene, sight, mut words) = Scene::new(of, seed);
    let memory = Shared::of(&mut words, scene.space().origin);
    let (clock, mailboxes) = (AtomicU64::new(0), [Mailbox::default(), Mailbox::default()]);
    let means = scene.means(&sight.watched);
    let writer = Writer::new(scene, &sight, memory, &mailboxes, flaw);
    let (linked, frozen) = (BTreeSet::new(), BTreeSet::new());
    let mut stepped = Stepped { writer, memory, clock: &clock, means, linked, frozen };
    let processor = |which: usize, upper| {
        Onlooker::new(&sight, memory, &clock, &mailboxes[which], upper, seed.wrapping_add(which as u64), 4096)
            .with(caches, flaw)
    };
    let mut onlookers = [processor(0, Upper::All), processor(1, Upper::Leading)];
    for _ in 0..operations {
        stepped.writer.tell(clock.load(SeqCst));
        stepped.operation(of, &mut onlookers)?;
        for onlooker in &mut onlookers {
            onlooker.turn(stepped.writer.scene.random.below(32));
            stepped.judge(onlooker)?;
        }
    }
    for onlooker in &mut onlookers {
        onlooker.finish();
        stepped.judge(onlooker)?;
        stepped.writer.tally.add(onlooker.counts);
    }
    Ok(stepped.writer.tally)
}
