//! The compiled library, every field of its answer.

use crate::case::{Case, LookedUp};
use tablepath::numbers;

pub fn look_up(case: &Case) -> LookedUp {
    let window = case.window();
    let numbers::LookedUp { kind, base, size, frame, rights } =
        numbers::look_up(window.bytes, window.origin, case.cr3, case.va);
    LookedUp { kind, base, size, frame, rights }
}
