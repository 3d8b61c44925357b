//! One request, as numbers, and its answer, so that sequences can be kept, repeated and shown.

use crate::{Created, LookedUp, Mapped, Operations, Protected, Space, Told, Unmapped, REASONS};
use std::fmt;

#[derive(Clone, Copy, PartialEq, Eq, Debug)]
pub enum Request {
    Create { origin: u64, pool: u64, pages: u64 },
    Map { space: Space, base: u64, frame: u64, size: u64, rights: u64 },
    Unmap { space: Space, base: u64 },
    Protect { space: Space, base: u64, rights: u64 },
    Told { space: Space, ticket: u64 },
    LookUp { origin: u64, root: u64, va: u64 },
}

#[derive(Clone, Copy, PartialEq, Eq, Debug)]
pub enum Answer {
    Created(Created),
    Mapped(Mapped),
    Unmapped(Unmapped),
    Protected(Protected),
    Told(Told),
    LookedUp(LookedUp),
}

impl Request {
    pub fn ask(&self, of: &dyn Operations, mem: &mut [u8]) -> Answer {
        match *self {
            Request::Create { origin, pool, pages } => Answer::Created(of.create(mem, origin, pool, pages)),
            Request::Map { space, base, frame, size, rights } => {
                Answer::Mapped(of.map(mem, space, base, frame, size, rights))
            }
            Request::Unmap { space, base } => Answer::Unmapped(of.unmap(mem, space, base)),
            Request::Protect { space, base, rights } => Answer::Protected(of.protect(mem, space, base, rights)),
            Request::Told { space, ticket } => Answer::Told(of.told(mem, space, ticket)),
            Request::LookUp { origin, root, va } => Answer::LookedUp(of.look_up(mem, origin, root, va)),
        }
    }

    /// The answer to this request that refuses it: nothing but the reason.
    pub fn refused(&self, reason: u64) -> Answer {
        match self {
            Request::Create { .. } => Answer::Created(Created { reason, ..Created::default() }),
            Request::Map { .. } => Answer::Mapped(Mapped { reason, ..Mapped::default() }),
            Request::Unmap { .. } => Answer::Unmapped(Unmapped { reason, ..Unmapped::default() }),
            Request::Protect { .. } => Answer::Protected(Protected { reason, ..Protected::default() }),
            Request::Told { .. } => Answer::Told(Told { reason, ..Told::default() }),
            Request::LookUp { .. } => unreachable!("a look-up is not refused"),
        }
    }

    pub fn space(&self) -> Option<Space> {
        match *self {
            Request::Map { space, .. }
            | Request::Unmap { space, .. }
            | Request::Protect { space, .. }
            | Request::Told { space, .. } => Some(space),
            Request::Create { .. } | Request::LookUp { .. } => None,
        }
    }

    pub fn origin(&self) -> u64 {
        match *self {
            Request::Create { origin, .. } | Request::LookUp { origin, .. } => origin,
            Request::Map { space, .. }
            | Request::Unmap { space, .. }
            | Request::Protect { space, .. }
            | Request::Told { space, .. } => space.origin,
        }
    }

    /// The window's origin, the pool's first address and its pages, as the request has them; none where it writes nothing.
    pub fn pool(&self) -> Option<(u64, u64, u64)> {
        match *self {
            Request::Create { origin, pool, pages } => Some((origin, pool, pages)),
            _ => self.space().map(|space| (space.origin, space.pool, space.pages)),
        }
    }

    pub fn name(&self) -> &'static str {
        match self {
            Request::Create { .. } => "create",
            Request::Map { .. } => "map",
            Request::Unmap { .. } => "unmap",
            Request::Protect { .. } => "protect",
            Request::Told { .. } => "told",
            Request::LookUp { .. } => "look_up",
        }
    }
}

impl Answer {
    /// 0 where it was done; a look-up always is.
    pub fn reason(&self) -> u64 {
        match self {
            Answer::Created(answer) => answer.reason,
            Answer::Mapped(answer) => answer.reason,
            Answer::Unmapped(answer) => answer.reason,
            Answer::Protected(answer) => answer.reason,
            Answer::Told(answer) => answer.reason,
            Answer::LookedUp(_) => 0,
        }
    }
}

impl fmt::Display for Request {
    fn fmt(&self, to: &mut fmt::Formatter) -> fmt::Result {
        match *self {
            Request::Create { origin, pool, pages } => {
                write!(to, "create origin {origin:#x}, pool {pool:#x} of {pages} pages")
            }
            Request::Map { base, frame, size, rights, .. } => {
                write!(to, "map {size:#x} bytes at {base:#x} to frame {frame:#x}, rights {rights:#b}")
            }
            Request::Unmap { base, .. } => write!(to, "unmap {base:#x}"),
            Request::Protect { base, rights, .. } => write!(to, "protect {base:#x}, rights {rights:#b}"),
            Request::Told { ticket, .. } => write!(to, "told {ticket}"),
            Request::LookUp { origin, root, va } => write!(to, "look_up {va:#x}, origin {origin:#x}, root {root:#x}"),
        }
    }
}

impl fmt::Display for Answer {
    fn fmt(&self, to: &mut fmt::Formatter) -> fmt::Result {
        let reason = self.reason();
        let name = REASONS.get(reason as usize).unwrap_or(&"?");
        match self {
            Answer::LookedUp(LookedUp { kind, base, size, frame, rights }) => {
                let kind = ["nothing", "page", "outside", "?", "?", "no address"].get(*kind as usize).unwrap_or(&"?");
                write!(to, "{kind}, base {base:#x}, size {size:#x}, frame {frame:#x}, rights {rights:#b}")
            }
            Answer::Created(Created { root, .. }) => write!(to, "{reason} ({name}), root {root:#x}"),
            Answer::Mapped(Mapped { tables, .. }) => write!(to, "{reason} ({name}), tables {tables}"),
            Answer::Unmapped(Unmapped { frame, size, aside, ticket, .. }) => {
                write!(to, "{reason} ({name}), frame {frame:#x}, size {size:#x}, set aside {aside}, ticket {ticket}")
            }
            Answer::Protected(Protected { frame, size, .. }) => {
                write!(to, "{reason} ({name}), frame {frame:#x}, size {size:#x}")
            }
            Answer::Told(Told { released, .. }) => write!(to, "{reason} ({name}), released {released}"),
        }
    }
}
