//! A scene that is played: each step is taken, and all that can be said of it is checked.

use crate::audit::{audit, lists};
use crate::chance::canonical;
use crate::cover::{Before, Cover};
use crate::due::{due, looked_up, Write};
use crate::layout::TICKETS;
use crate::ledger::{Ledger, EDGES};
use crate::random::Random;
use crate::steps::{Hints, Setup, Step};
use crate::{reasons, Answer, Operations, Request, Space};
use model::{walk, Window};
use std::cell::Cell;
use std::panic::{catch_unwind, AssertUnwindSafe};

/// Bytes that are not lent, around the window.
const AROUND: usize = 64;
/// In larger windows not every byte is looked at after every step.
const LARGE: usize = 24 * 4096;
/// The reasons that one which is raw gives; and to all but map, that the base is no address.
const RAW: [u64; 4] = [reasons::DONE, reasons::OVERLAP, reasons::NO_ROOM, reasons::NOTHING_STARTS];

pub struct Run<'a> {
    of: &'a dyn Operations,
    /// Asked the same, for answers and bytes to be compared.
    beside: Option<&'a dyn Operations>,
    setup: Setup,
    /// Memory with the window in it: of the one, of the other, and what it should be.
    room: Vec<u8>,
    other: Vec<u8>,
    should: Vec<u8>,
    /// As long as no byte is damaged.
    ledger: Option<Ledger>,
    /// Every check after every step.
    thorough: bool,
    pub hints: Hints,
}

pub type Trouble = String;

impl<'a> Run<'a> {
    pub fn begin(
        of: &'a dyn Operations,
        beside: Option<&'a dyn Operations>,
        setup: Setup,
        thorough: bool,
    ) -> Result<Run<'a>, Trouble> {
        let mut room = vec![0; setup.shift + setup.len + 2 * AROUND];
        fill(&mut room, setup.junk);
        let (other, should) = (if beside.is_some() { room.clone() } else { vec![] }, room.clone());
        let hints = Hints::default();
        let mut run = Run { of, beside, setup, room, other, should, ledger: None, thorough, hints };
        let Setup { len, origin, pool, pages, released, .. } = setup;
        run.ask(&Request::Create { origin, pool, pages }, 0, len, 0, None)?;
        run.put((pool - origin + 8 * TICKETS) as usize, released);
        run.ledger = Some(Ledger::new(len, origin, pool, pages, released));
        run.audit()?;
        Ok(run)
    }

    /// From here on bytes are damaged, and the ledger knows nothing.
    pub fn damage(&mut self) {
        self.ledger = None;
    }

    /// As it should be.
    pub fn window(&self) -> &[u8] {
        &self.should[self.start()..self.start() + self.setup.len]
    }

    fn start(&self) -> usize {
        AROUND + self.setup.shift
    }

    /// The answer, where something was asked. What a ledger cannot judge, or one that is raw must be spared, is not asked.
    pub fn step(&mut self, step: &Step, cover: &mut Cover) -> Result<Option<Answer>, Trouble> {
        match *step {
            Step::Ask { request, from, to, sample } => {
                let before = self.ledger.as_ref().map(|ledger| Before::new(ledger, &request));
                let judged = match &mut self.ledger {
                    None => None,
                    Some(ledger) => {
                        let judged = ledger.judge(&request, to - from);
                        let looks = matches!(request, Request::LookUp { .. });
                        if judged.is_none() && !looks
                            || self.is_raw() && !judged.is_some_and(|judged| raw_answers(&request, judged))
                        {
                            return Ok(None);
                        }
                        judged
                    }
                };
                let answer = self.ask(&request, from, to, sample, judged)?;
                if let Some(ledger) = &self.ledger {
                    self.meaning(ledger, &request, sample)?;
                    if self.thorough || Random::new(sample, 1).below(ledger.tables() + 1) < 6 {
                        self.audit()?;
                    }
                }
                cover.note(&self.setup, &request, &answer, before, self.ledger.as_ref());
                Ok(Some(answer))
            }
            Step::Mark { va, dirty } => {
                self.mark(va, dirty);
                Ok(None)
            }
            Step::Old { va } => {
                self.make_both(va);
                Ok(None)
            }
            Step::Put { at, word } => {
                self.put(at, word);
                Ok(None)
            }
            Step::Fill { at, junk } => {
                let start = self.start() + at;
                for room in [&mut self.room, &mut self.other, &mut self.should] {
                    if let Some(page) = room.get_mut(start..start + 4096) {
                        fill(page, junk);
                    }
                }
                Ok(None)
            }
        }
    }

    fn is_raw(&self) -> bool {
        self.of.is_raw() || self.beside.is_some_and(|beside| beside.is_raw())
    }

    fn put(&mut self, at: usize, word: u64) {
        let start = self.start() + at;
        for room in [&mut self.room, &mut self.other, &mut self.should] {
            if let Some(bytes) = room.get_mut(start..start + 8) {
                bytes.copy_from_slice(&word.to_le_bytes());
            }
        }
    }

    fn mark(&mut self, va: u64, dirty: bool) {
        let origin = self.setup.origin;
        let walk = walk(Window { bytes: self.window(), origin }, self.setup.space().root, va);
        let model::Answer::Page { .. } = walk.answer else { return };
        let mut way = walk.way.into_iter().flatten().peekable();
        while let Some(entry) = way.next() {
            let dirty = u64::from(dirty && way.peek().is_none());
            self.put((entry.address - origin) as usize, entry.word | 1 << 5 | dirty << 6);
        }
    }

    fn make_both(&mut self, va: u64) {
        let origin = self.setup.origin;
        let walk = walk(Window { bytes: self.window(), origin }, self.setup.space().root, va);
        let model::Answer::Page { .. } = walk.answer else { return };
        let entry = walk.way.into_iter().flatten().last().expect("a page has an entry");
        self.put((entry.address - origin) as usize, entry.word & !(1 << 63) | 1 << 1);
        if let Some(ledger) = &mut self.ledger {
            ledger.make_both(va);
        }
    }

    /// Asks, and compares the answer and every byte with what they should be.
    fn ask(
        &mut self,
        request: &Request,
        from: usize,
        to: usize,
        sample: u64,
        judged: Option<Answer>,
    ) -> Result<Answer, Trouble> {
        let (from, to) = (self.start() + from, self.start() + to);
        let window = Window { bytes: &self.should[from..to], origin: request.origin() };
        let due = due(window, request);
        let answer = asked(self.of, &mut self.room[from..to], request)?;
        if answer != due.answer {
            return Err(format!("answered {answer}\n  should be {}", due.answer));
        }
        if let Some(judged) = judged.filter(|judged| *judged != answer) {
            return Err(format!("answered {answer}\n  and by the mappings it should be {judged}"));
        }
        self.allowed(request, &answer, &due.writes)?;
        for write in &due.writes {
            let place = |address: u64| from + (address - request.origin()) as usize;
            match *write {
                Write::Word(at, word) => self.should[place(at)..][..8].copy_from_slice(&word.to_le_bytes()),
                Write::Clear(page) => self.should[place(page)..][..4096].fill(0),
            }
        }
        let all = self.thorough || self.setup.len < LARGE || Random::new(sample, 2).chance(1, 8);
        self.bytes(&self.room, all)?;
        if let Some(beside) = self.beside {
            let beside = asked(beside, &mut self.other[from..to], request)?;
            if beside != answer {
                return Err(format!("answered {answer}\n  and beside it {beside}"));
            }
            self.bytes(&self.other, all).map_err(|trouble| format!("beside it: {trouble}"))?;
        }
        self.hints.note(request, &answer);
        Ok(answer)
    }

    /// What is due lies where it may: nowhere if it was refused, else in the pool, and in no page that is set aside.
    /// With this, bytes that are as they should be have changed nowhere else.
    fn allowed(&self, request: &Request, answer: &Answer, writes: &[Write]) -> Result<(), Trouble> {
        let aside = self.ledger.as_ref().map_or(vec![], |ledger| lists(self.window(), &ledger.space).aside);
        let (_, pool, pages) = request.pool().unwrap_or((0, 0, 0));
        for write in writes {
            let (Write::Word(at, _) | Write::Clear(at)) = *write;
            if answer.reason() != 0 || at < pool || at - pool >= 4096 * pages || aside.contains(&(at / 4096)) {
                return Err(format!("answered {answer}, and {at:#x} should be written, which may not be"));
            }
        }
        Ok(())
    }

    /// Is each byte what it should be? In a large window not all are looked at each time: what is wrong stays so.
    fn bytes(&self, room: &[u8], all: bool) -> Result<(), Trouble> {
        if all && *room != self.should {
            return Err(self.difference(room));
        }
        Ok(())
    }

    /// The last look, at all bytes.
    pub fn end(&self) -> Result<(), Trouble> {
        self.bytes(&self.room, true)?;
        self.beside.map_or(Ok(()), |_| self.bytes(&self.other, true))?;
        self.ledger.as_ref().map_or(Ok(()), |ledger| self.boundaries(ledger))?;
        self.audit()
    }

    /// The first byte that is not what it should be, as its word.
    fn difference(&self, room: &[u8]) -> Trouble {
        let at = room.iter().zip(&self.should).position(|(is, should)| is != should).unwrap_or(0);
        let Some(place) = at.checked_sub(self.start()).filter(|place| *place < self.setup.len) else {
            return format!("a byte around the window changed, {at} in the test's memory");
        };
        let word = |room: &[u8]| {
            let at = self.start() + place / 8 * 8;
            u64::from_le_bytes(room[at..at + 8].try_into().expect("eight bytes"))
        };
        let address = self.setup.origin + (place / 8 * 8) as u64;
        let (is, should) = (word(room), word(&self.should));
        format!("the word at {address:#x} is {is:#x}, and should be {should:#x}")
    }

    /// The meaning of addresses: sampled, around what was asked, and now and then around every page.
    fn meaning(&self, ledger: &Ledger, request: &Request, sample: u64) -> Result<(), Trouble> {
        let mut random = Random::new(sample, 0);
        let mut addresses = vec![random.word(), canonical(random.word()), random.pick(&EDGES)];
        let pages = &ledger.mappings;
        if !pages.is_empty() {
            let page = random.pick(pages);
            addresses.push(page.base + random.below(page.size));
        }
        if let Request::Map { base, size, .. } = *request {
            addresses.extend(ends(base, size));
        }
        if let Request::Unmap { base, .. } | Request::Protect { base, .. } = *request {
            addresses.extend(ends(base, 4096));
        }
        self.mean(ledger, &addresses)?;
        if self.thorough || random.below(pages.len() as u64 + 1) < 8 {
            self.boundaries(ledger)?;
        }
        Ok(())
    }

    fn boundaries(&self, ledger: &Ledger) -> Result<(), Trouble> {
        let addresses: Vec<u64> = ledger.mappings.iter().flat_map(|page| ends(page.base, page.size)).collect();
        self.mean(ledger, &addresses)
    }

    /// By the ledger, by a look-up, and by the manual's walk of the bytes they mean the same.
    fn mean(&self, ledger: &Ledger, addresses: &[u64]) -> Result<(), Trouble> {
        let Space { origin, root, .. } = ledger.space;
        let bytes = &self.room[self.start()..][..self.setup.len];
        for va in addresses {
            let means = Answer::LookedUp(ledger.means(*va));
            let found = Answer::LookedUp(self.of.look_up(bytes, origin, root, *va));
            let walked = looked_up(walk(Window { bytes, origin }, root, *va));
            if found != means || walked != means {
                return Err(format!(
                    "{va:#x} means {found}\n  by the manual's walk {walked}\n  and should mean {means}"
                ));
            }
        }
        Ok(())
    }

    fn audit(&self) -> Result<(), Trouble> {
        let bytes = &self.room[self.start()..][..self.setup.len];
        self.ledger.as_ref().map_or(Ok(()), |ledger| audit(bytes, ledger))
    }
}

fn raw_answers(request: &Request, judged: Answer) -> bool {
    RAW.contains(&judged.reason()) || judged.reason() == reasons::BASE_RANGE && !matches!(request, Request::Map { .. })
}

/// The first and the last address of a page, and those next to it.
fn ends(base: u64, size: u64) -> [u64; 4] {
    let end = base.wrapping_add(size);
    [base.wrapping_sub(1), base, end.wrapping_sub(1), end]
}

thread_local! {
    static ASKING: Cell<bool> = const { Cell::new(false) };
}

/// Is a request under way, on this thread?
pub fn is_asking() -> bool {
    ASKING.get()
}

/// One that stops is wrong like one that answers wrongly.
fn asked(of: &dyn Operations, mem: &mut [u8], request: &Request) -> Result<Answer, Trouble> {
    ASKING.set(true);
    let answer = catch_unwind(AssertUnwindSafe(|| request.ask(of, mem)));
    ASKING.set(false);
    answer.map_err(|_| "it panicked".into())
}

fn fill(bytes: &mut [u8], junk: u64) {
    let mut random = Random::new(junk, 0);
    for word in bytes.chunks_mut(8) {
        word.copy_from_slice(&random.word().to_le_bytes()[..word.len()]);
    }
}
