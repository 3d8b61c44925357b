//! The operations of `baseline`, checked and raw.

use crate::{Created, LookedUp, Mapped, Operations, Protected, Space, Told, Unmapped};
use baseline::{checked, raw, Meaning, Reason};

fn lent(space: Space) -> baseline::Space {
    let Space { origin, pool, pages, root } = space;
    baseline::Space { origin, pool, pages, root }
}

/// The reason, 0 where there is none, and the answer, if there is one.
fn told<T>(answer: Result<T, Reason>) -> (u64, Option<T>) {
    match answer {
        Ok(answer) => (0, Some(answer)),
        Err(reason) => (reason as u64, None),
    }
}

fn created(answer: Result<u64, Reason>) -> Created {
    let (reason, root) = told(answer);
    Created { reason, root: root.unwrap_or(0) }
}

fn mapped(answer: Result<u64, Reason>) -> Mapped {
    let (reason, tables) = told(answer);
    Mapped { reason, tables: tables.unwrap_or(0) }
}

fn unmapped(answer: Result<baseline::Unmapped, Reason>) -> Unmapped {
    match told(answer) {
        (reason, Some(baseline::Unmapped { frame, size, aside, ticket })) => {
            Unmapped { reason, frame, size, aside, ticket }
        }
        (reason, None) => Unmapped { reason, ..Unmapped::default() },
    }
}

fn protected(answer: Result<baseline::Protected, Reason>) -> Protected {
    match told(answer) {
        (reason, Some(baseline::Protected { frame, size, ticket })) => Protected { reason, frame, size, ticket },
        (reason, None) => Protected { reason, ..Protected::default() },
    }
}

fn released(answer: Result<u64, Reason>) -> Told {
    let (reason, released) = told(answer);
    Told { reason, released: released.unwrap_or(0) }
}

fn looked_up(answer: Meaning) -> LookedUp {
    match answer {
        Meaning::Nothing => LookedUp::default(),
        Meaning::Outside => LookedUp { kind: 2, ..LookedUp::default() },
        Meaning::NoAddress => LookedUp { kind: 5, ..LookedUp::default() },
        Meaning::Page { base, size, frame, rights } => LookedUp { kind: 1, base, size, frame, rights },
    }
}

pub struct Checked;

impl Operations for Checked {
    fn create(&self, mem: &mut [u8], origin: u64, pool: u64, pages: u64) -> Created {
        created(checked::create(mem, origin, pool, pages))
    }

    fn map(&self, mem: &mut [u8], space: Space, base: u64, frame: u64, size: u64, rights: u64) -> Mapped {
        mapped(checked::map(mem, &lent(space), base, frame, size, rights))
    }

    fn unmap(&self, mem: &mut [u8], space: Space, base: u64) -> Unmapped {
        unmapped(checked::unmap(mem, &lent(space), base))
    }

    fn protect(&self, mem: &mut [u8], space: Space, base: u64, rights: u64) -> Protected {
        protected(checked::protect(mem, &lent(space), base, rights))
    }

    fn told(&self, mem: &mut [u8], space: Space, ticket: u64) -> Told {
        released(checked::told(mem, &lent(space), ticket))
    }

    fn look_up(&self, mem: &[u8], origin: u64, root: u64, va: u64) -> LookedUp {
        looked_up(checked::look_up(mem, origin, root, va))
    }
}

/// Asked only what it may be: the space is the one that was made, and what it does not refuse is in order.
pub struct Raw;

// SAFETY, of all: `Run` asks what the ledger says is in order, in a window that holds the pool.
impl Operations for Raw {
    fn create(&self, mem: &mut [u8], origin: u64, pool: u64, pages: u64) -> Created {
        created(Ok(unsafe { raw::create(mem.as_mut_ptr(), origin, pool, pages) }))
    }

    fn map(&self, mem: &mut [u8], space: Space, base: u64, frame: u64, size: u64, rights: u64) -> Mapped {
        mapped(unsafe { raw::map(mem.as_mut_ptr(), &lent(space), base, frame, size, rights) })
    }

    fn unmap(&self, mem: &mut [u8], space: Space, base: u64) -> Unmapped {
        unmapped(unsafe { raw::unmap(mem.as_mut_ptr(), &lent(space), base) })
    }

    fn protect(&self, mem: &mut [u8], space: Space, base: u64, rights: u64) -> Protected {
        protected(unsafe { raw::protect(mem.as_mut_ptr(), &lent(space), base, rights) })
    }

    fn told(&self, mem: &mut [u8], space: Space, ticket: u64) -> Told {
        released(Ok(unsafe { raw::told(mem.as_mut_ptr(), &lent(space), ticket) }))
    }

    fn look_up(&self, mem: &[u8], origin: u64, root: u64, va: u64) -> LookedUp {
        looked_up(unsafe { raw::look_up(mem.as_ptr(), origin, root, va) })
    }

    fn is_raw(&self) -> bool {
        true
    }
}
