//! How a scene begins, and its steps, as values: to be kept, repeated, dropped and shown.

use crate::space::made;
use crate::{Answer, Request, Space};
use std::fmt;

/// How a scene begins: a window full of anything, and a pool that is made in it.
#[derive(Clone, Copy, PartialEq, Eq, Debug)]
pub struct Setup {
    /// Where the window starts in the test's own memory, so that words are aligned there or not.
    pub shift: usize,
    pub len: usize,
    pub origin: u64,
    pub pool: u64,
    pub pages: u64,
    /// What the window is filled with.
    pub junk: u64,
    /// As if so many pages had been released before.
    pub released: u64,
}

impl Setup {
    pub fn space(&self) -> Space {
        made(self.origin, self.pool, self.pages)
    }
}

#[derive(Clone, Copy, PartialEq, Eq, Debug)]
pub enum Step {
    /// A request, over the window's bytes `from` up to `to`. `sample` chooses the addresses that are looked at afterwards.
    Ask { request: Request, from: usize, to: usize, sample: u64 },
    /// The machine goes to the address, and marks the entries on its way; and the page as dirty where it writes.
    Mark { va: u64, dirty: bool },
    /// The page at the address becomes writable and executable, as in tables that were made before such a page was refused.
    Old { va: u64 },
    /// Damage: the word at this place of the window becomes another.
    Put { at: usize, word: u64 },
    /// Damage: the page at this place of the window is filled with anything.
    Fill { at: usize, junk: u64 },
}

/// What is worth asking about: what was mapped, and the tickets that were handed out.
#[derive(Default)]
pub struct Hints {
    pub pages: Vec<(u64, u64)>,
    pub tickets: Vec<u64>,
}

impl Hints {
    pub fn note(&mut self, request: &Request, answer: &Answer) {
        match (*request, *answer) {
            (Request::Map { base, size, .. }, Answer::Mapped(mapped)) if mapped.reason == 0 => {
                self.pages.push((base, size));
            }
            (Request::Unmap { base, .. }, Answer::Unmapped(unmapped)) if unmapped.reason == 0 => {
                self.pages.retain(|page| page.0 != base);
                if self.tickets.last() != Some(&unmapped.ticket) {
                    self.tickets.push(unmapped.ticket);
                }
            }
            _ => {}
        }
    }
}

impl fmt::Display for Setup {
    fn fmt(&self, to: &mut fmt::Formatter) -> fmt::Result {
        let Setup { shift, len, junk, released, .. } = self;
        write!(to, "{}; a window of {len:#x} bytes, at {shift}, filled by {junk:#x}", self.space())?;
        if *released > 0 {
            write!(to, "; {released} pages released before")?;
        }
        Ok(())
    }
}

impl fmt::Display for Step {
    fn fmt(&self, to: &mut fmt::Formatter) -> fmt::Result {
        match self {
            Step::Ask { request, .. } => write!(to, "{request}"),
            Step::Mark { va, dirty } => {
                write!(to, "the machine {} {va:#x}", if *dirty { "writes to" } else { "reads" })
            }
            Step::Old { va } => write!(to, "the page at {va:#x} becomes writable and executable"),
            Step::Put { at, word } => write!(to, "the word at {at:#x} of the window becomes {word:#x}"),
            Step::Fill { at, junk } => write!(to, "the page at {at:#x} of the window is filled by {junk:#x}"),
        }
    }
}
