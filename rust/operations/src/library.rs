//! The compiled library, every field of its answers.

use crate::{Created, LookedUp, Mapped, Operations, Protected, Space, Told, Unmapped};
use tablepath::numbers;

pub struct Library;

fn lent(space: Space) -> numbers::Handle {
    let Space { origin, pool, pages, root } = space;
    numbers::Handle { origin, pool, pages, root }
}

impl Operations for Library {
    fn create(&self, mem: &mut [u8], origin: u64, pool: u64, pages: u64) -> Created {
        let numbers::Created { reason, root } = numbers::create(mem, origin, pool, pages);
        Created { reason, root }
    }

    fn map(&self, mem: &mut [u8], space: Space, base: u64, frame: u64, size: u64, rights: u64) -> Mapped {
        let numbers::Mapped { reason, tables } = numbers::map(mem, lent(space), base, frame, size, rights);
        Mapped { reason, tables }
    }

    fn unmap(&self, mem: &mut [u8], space: Space, base: u64) -> Unmapped {
        let numbers::Unmapped { reason, frame, size, aside, ticket } = numbers::unmap(mem, lent(space), base);
        Unmapped { reason, frame, size, aside, ticket }
    }

    fn protect(&self, mem: &mut [u8], space: Space, base: u64, rights: u64) -> Protected {
        let numbers::Protected { reason, frame, size, ticket } = numbers::protect(mem, lent(space), base, rights);
        Protected { reason, frame, size, ticket }
    }

    fn told(&self, mem: &mut [u8], space: Space, ticket: u64) -> Told {
        let numbers::Told { reason, released } = numbers::told(mem, lent(space), ticket);
        Told { reason, released }
    }

    fn look_up(&self, mem: &[u8], origin: u64, root: u64, va: u64) -> LookedUp {
        let numbers::LookedUp { kind, base, size, frame, rights } = numbers::look_up(mem, origin, root, va);
        LookedUp { kind, base, size, frame, rights }
    }
}
