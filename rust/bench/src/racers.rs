//! The three, each called as its callers call it: the library's C functions, and the baselines' functions. Of an answer only
//! the reason is looked at, and the ticket; all of it has to be there, since it is shown to `black_box`.

use baseline::{checked, raw, Meaning, Reason};
use operations::Space;
use std::hint::black_box;
use tablepath::numbers;

/// Reasons are 0 where it was done; a look-up's where it found a page.
pub trait Racer {
    fn look_up(&self, mem: &[u8], space: &Space, va: u64) -> u64;
    fn map(&self, mem: &mut [u8], space: &Space, base: u64, frame: u64, size: u64, rights: u64) -> u64;
    /// The reason and the ticket.
    fn unmap(&self, mem: &mut [u8], space: &Space, base: u64) -> (u64, u64);
    fn protect(&self, mem: &mut [u8], space: &Space, base: u64, rights: u64) -> u64;
    fn told(&self, mem: &mut [u8], space: &Space, ticket: u64) -> u64;
}

pub struct Library;

#[inline(always)]
fn lent(space: &Space) -> numbers::Handle {
    let Space { origin, pool, pages, root } = *space;
    numbers::Handle { origin, pool, pages, root }
}

impl Racer for Library {
    #[inline(always)]
    fn look_up(&self, mem: &[u8], space: &Space, va: u64) -> u64 {
        black_box(&numbers::look_up(mem, space.origin, space.root, va)).kind ^ 1
    }

    #[inline(always)]
    fn map(&self, mem: &mut [u8], space: &Space, base: u64, frame: u64, size: u64, rights: u64) -> u64 {
        black_box(&numbers::map(mem, lent(space), base, frame, size, rights)).reason
    }

    #[inline(always)]
    fn unmap(&self, mem: &mut [u8], space: &Space, base: u64) -> (u64, u64) {
        let answer = numbers::unmap(mem, lent(space), base);
        black_box(&answer);
        (answer.reason, answer.ticket)
    }

    #[inline(always)]
    fn protect(&self, mem: &mut [u8], space: &Space, base: u64, rights: u64) -> u64 {
        black_box(&numbers::protect(mem, lent(space), base, rights)).reason
    }

    #[inline(always)]
    fn told(&self, mem: &mut [u8], space: &Space, ticket: u64) -> u64 {
        black_box(&numbers::told(mem, lent(space), ticket)).reason
    }
}

fn reason<T>(answer: &Result<T, Reason>) -> u64 {
    match black_box(answer) {
        Ok(_) => 0,
        Err(reason) => *reason as u64,
    }
}

fn missed(meaning: &Meaning) -> u64 {
    u64::from(!matches!(black_box(meaning), Meaning::Page { .. }))
}

fn gone(answer: &Result<baseline::Unmapped, Reason>) -> (u64, u64) {
    (reason(answer), answer.as_ref().map_or(0, |answer| answer.ticket))
}

/// A space is built once by whoever has the tables; here it is the same four numbers under another name.
#[inline(always)]
fn its(space: &Space) -> baseline::Space {
    let Space { origin, pool, pages, root } = *space;
    baseline::Space { origin, pool, pages, root }
}

pub struct Checked;

impl Racer for Checked {
    #[inline(always)]
    fn look_up(&self, mem: &[u8], space: &Space, va: u64) -> u64 {
        missed(&checked::look_up(mem, space.origin, space.root, va))
    }

    #[inline(always)]
    fn map(&self, mem: &mut [u8], space: &Space, base: u64, frame: u64, size: u64, rights: u64) -> u64 {
        reason(&checked::map(mem, &its(space), base, frame, size, rights))
    }

    #[inline(always)]
    fn unmap(&self, mem: &mut [u8], space: &Space, base: u64) -> (u64, u64) {
        gone(&checked::unmap(mem, &its(space), base))
    }

    #[inline(always)]
    fn protect(&self, mem: &mut [u8], space: &Space, base: u64, rights: u64) -> u64 {
        reason(&checked::protect(mem, &its(space), base, rights))
    }

    #[inline(always)]
    fn told(&self, mem: &mut [u8], space: &Space, ticket: u64) -> u64 {
        reason(&checked::told(mem, &its(space), ticket))
    }
}

pub struct Raw;

// SAFETY, of all: scenes ask only what is in order, in a window that holds the pool.
impl Racer for Raw {
    #[inline(always)]
    fn look_up(&self, mem: &[u8], space: &Space, va: u64) -> u64 {
        missed(&unsafe { raw::look_up(mem.as_ptr(), space.origin, space.root, va) })
    }

    #[inline(always)]
    fn map(&self, mem: &mut [u8], space: &Space, base: u64, frame: u64, size: u64, rights: u64) -> u64 {
        reason(&unsafe { raw::map(mem.as_mut_ptr(), &its(space), base, frame, size, rights) })
    }

    #[inline(always)]
    fn unmap(&self, mem: &mut [u8], space: &Space, base: u64) -> (u64, u64) {
        gone(&unsafe { raw::unmap(mem.as_mut_ptr(), &its(space), base) })
    }

    #[inline(always)]
    fn protect(&self, mem: &mut [u8], space: &Space, base: u64, rights: u64) -> u64 {
        reason(&unsafe { raw::protect(mem.as_mut_ptr(), &its(space), base, rights) })
    }

    #[inline(always)]
    fn told(&self, mem: &mut [u8], space: &Space, ticket: u64) -> u64 {
        black_box(unsafe { raw::told(mem.as_mut_ptr(), &its(space), ticket) });
        0
    }
}
