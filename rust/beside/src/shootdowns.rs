//! Shootdowns: the writer begins one with the pages that it has unmapped or protected since it began the one before, and with
//! the ticket of that moment; each processor does INVLPG of each of these pages, when it likes. Three may be under way at once.
//! One that is done before an older one counts as done with that.

use crate::flaw::Flaw;
use crate::log::Tally;
use operations::random::Random;
use std::array::from_fn;
use std::collections::VecDeque;
use std::sync::atomic::{AtomicU64, Ordering::SeqCst};

const MOST: usize = 3;

/// Where a processor is told of shootdowns, and says which it has done. Number n has the place n % MOST.
#[derive(Default)]
pub struct Mailbox {
    posted: AtomicU64,
    posts: [Post; MOST],
}

#[derive(Default)]
struct Post {
    /// A bit for each page of the scene.
    pages: AtomicU64,
    began: AtomicU64,
    /// How many are done that had this place.
    done: AtomicU64,
}

impl Mailbox {
    fn post(&self, number: u64) -> &Post {
        &self.posts[number as usize % MOST]
    }

    fn is_done(&self, number: u64) -> bool {
        self.post(number).done.load(SeqCst) > number / MOST as u64
    }

    /// Are three under way?
    pub fn is_full(&self) -> bool {
        let posted = self.posted.load(SeqCst);
        posted >= MOST as u64 && (posted - MOST as u64..posted).all(|number| !self.is_done(number))
    }
}

/// One that a processor was told of: its pages, those of them that are left, and the clock when it began.
#[derive(Clone, Copy, Default)]
pub struct Order {
    pub pages: u64,
    left: u64,
    pub began: u64,
}

/// A processor's side: what it was told. It allocates nothing.
pub struct Orders<'a> {
    mailbox: &'a Mailbox,
    orders: [Order; MOST],
    taken: u64,
    /// So many are done in their order.
    counted: u64,
}

impl<'a> Orders<'a> {
    pub fn new(mailbox: &'a Mailbox) -> Orders<'a> {
        Orders { mailbox, orders: [Order::default(); MOST], taken: 0, counted: 0 }
    }

    /// The number of any shootdown that it has not done.
    pub fn any(&mut self, random: &mut Random) -> Option<u64> {
        while self.taken < self.mailbox.posted.load(SeqCst) {
            let post = self.mailbox.post(self.taken);
            let pages = post.pages.load(SeqCst);
            self.orders[self.taken as usize % MOST] = Order { pages, left: pages, began: post.began.load(SeqCst) };
            self.taken += 1;
        }
        let from = random.below(MOST as u64);
        let turned: [u64; MOST] = from_fn(|more| self.counted + (from + more as u64) % MOST as u64);
        turned.into_iter().find(|number| *number < self.taken && !self.mailbox.is_done(*number))
    }

    /// Any page that is left of it, and the clock when it began.
    pub fn page(&mut self, number: u64, random: &mut Random) -> Option<(usize, u64)> {
        let order = &mut self.orders[number as usize % MOST];
        if order.left == 0 {
            return None;
        }
        let turn = random.below(64) as u32;
        let page = (order.left.rotate_right(turn).trailing_zeros() + turn) % 64;
        order.left &= !(1 << page);
        Some((page as usize, order.began))
    }

    /// Says that it is done; answers whether it was before an older one.
    pub fn finish(&mut self, number: u64) -> bool {
        self.mailbox.post(number).done.fetch_add(1, SeqCst);
        (self.counted..number).any(|older| !self.mailbox.is_done(older))
    }

    /// The next in their order that is done.
    pub fn count(&mut self) -> Option<Order> {
        if self.counted == self.taken || !self.mailbox.is_done(self.counted) {
            return None;
        }
        self.counted += 1;
        Some(self.orders[(self.counted - 1) as usize % MOST])
    }
}

pub struct Shootdown {
    number: u64,
    pub pages: u64,
    /// Of what was unmapped.
    pub frames: Vec<u64>,
    /// The clock when it began.
    pub began: u64,
    pub ticket: u64,
}

/// The writer's side.
pub struct Shootdowns<'a> {
    mailboxes: &'a [Mailbox],
    flaw: Flaw,
    begun: u64,
    /// So many are done in their order, by every processor.
    done: u64,
    /// What was unmapped or protected since the last one began.
    pages: u64,
    frames: Vec<u64>,
    underway: VecDeque<Shootdown>,
    /// Done, and not reported yet.
    ready: VecDeque<Shootdown>,
}

impl<'a> Shootdowns<'a> {
    pub fn new(mailboxes: &'a [Mailbox], flaw: Flaw) -> Shootdowns<'a> {
        let (underway, ready) = (VecDeque::new(), VecDeque::new());
        Shootdowns { mailboxes, flaw, begun: 0, done: 0, pages: 0, frames: vec![], underway, ready }
    }

    pub fn changed(&mut self, page: usize) {
        self.pages |= 1 << page;
    }

    pub fn unmapped(&mut self, frame: u64) {
        self.frames.push(frame);
    }

    /// Begins one, at this moment; or does not, where there are three already.
    pub fn begin(&mut self, random: &mut Random, clock: u64, ticket: u64, tally: &mut Tally) {
        let room = self.done + MOST as u64 - self.begun;
        if room == 0 {
            return;
        }
        let (number, pages) = (self.begun, std::mem::take(&mut self.pages));
        let left_out = if self.flaw == Flaw::OnePageTooFew { some_bit(random, pages) } else { 0 };
        for mailbox in self.mailboxes {
            let post = mailbox.post(number);
            post.pages.store(pages & !left_out, SeqCst);
            post.began.store(clock, SeqCst);
            mailbox.posted.store(number + 1, SeqCst);
        }
        self.begun += 1;
        tally.shootdowns += 1;
        tally.three += u64::from(room == 1);
        let frames = std::mem::take(&mut self.frames);
        self.underway.push_back(Shootdown { number, pages, frames, began: clock, ticket });
    }

    /// Looks which are done: they may be reported.
    pub fn collect(&mut self, clock: u64, ticket: u64) {
        let is_done = |number| self.mailboxes.iter().all(|mailbox| mailbox.is_done(number));
        self.done = (self.done..self.begun).find(|number| !is_done(*number)).unwrap_or(self.begun);
        let counted = match self.flaw {
            Flaw::ToldBeforeCachesDrop => self.begun,
            Flaw::OlderNotDone => (self.done..self.begun).rev().find(|n| is_done(*n)).map_or(self.done, |n| n + 1),
            _ => self.done,
        };
        while self.underway.front().is_some_and(|first| first.number < counted) {
            let mut first = self.underway.pop_front().expect("there is one");
            if self.flaw == Flaw::TicketOfTheEnd {
                (first.ticket, first.began) = (ticket, clock);
                first.pages |= std::mem::take(&mut self.pages);
                first.frames.append(&mut self.frames);
            }
            self.ready.push_back(first);
        }
    }

    /// A ticket that may be reported: that of any shootdown that is done, and often of the last.
    pub fn ticket(&self, random: &mut Random) -> Option<u64> {
        let last = self.ready.len().checked_sub(1)?;
        let which = if random.chance(1, 2) { last } else { random.index(last + 1) };
        Some(self.ready[which].ticket)
    }

    /// Those that a report with this ticket covers.
    pub fn reported(&mut self, ticket: u64) -> Vec<Shootdown> {
        let count = self.ready.iter().take_while(|ready| ready.ticket <= ticket).count();
        self.ready.drain(..count).collect()
    }
}

/// One of the bits that are set.
fn some_bit(random: &mut Random, bits: u64) -> u64 {
    let set: Vec<u64> = (0..64).map(|bit| 1 << bit).filter(|bit| bits & bit != 0).collect();
    if set.is_empty() {
        0
    } else {
        random.pick(&set)
    }
}
