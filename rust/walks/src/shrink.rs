//! The smallest case that still shows a difference: less window, fewer words, fewer bits, lower addresses.

use crate::case::Case;

/// Makes the case smaller for as long as it is still `bad`. Each round goes from large steps to small ones.
pub fn shrink(mut case: Case, bad: impl Fn(&Case) -> bool) -> Case {
    let attempt = |case: &mut Case, change: &dyn Fn(&mut Case)| {
        let mut smaller = case.clone();
        change(&mut smaller);
        let kept = bad(&smaller);
        if kept {
            *case = smaller;
        }
        kept
    };
    let mut again = true;
    while again {
        again = false;
        let words: Vec<usize> = case.words().collect();
        for page in words.chunks(512) {
            if page.iter().any(|at| case.word(*at) != 0) {
                again |= attempt(&mut case, &|case| page.iter().for_each(|at| case.put(*at, 0)));
            }
        }
        for at in &words {
            if case.word(*at) != 0 {
                again |= attempt(&mut case, &|case| case.put(*at, 0));
            }
        }
        if case.first > 4096 {
            again |= attempt(&mut case, &|case| lower(case, 4096));
        }
        for step in [65536, 4096, 512, 64, 8, 1] {
            while case.to - case.from >= step && attempt(&mut case, &|case| case.to -= step) {
                again = true;
            }
            while case.to - case.from >= step && attempt(&mut case, &|case| case.from += step) {
                again = true;
            }
        }
        for bit in (0..64).rev() {
            for at in &words {
                if case.word(*at) >> bit & 1 == 1 {
                    again |= attempt(&mut case, &|case| case.put(*at, case.word(*at) & !(1 << bit)));
                }
            }
            if case.cr3 >> bit & 1 == 1 {
                again |= attempt(&mut case, &|case| case.cr3 &= !(1 << bit));
            }
            if case.va >> bit & 1 == 1 {
                again |= attempt(&mut case, &|case| case.va &= !(1 << bit));
            }
        }
    }
    case
}

/// The same memory at a lower physical address, with every word, and CR3, that names a page of it.
fn lower(case: &mut Case, first: u64) {
    let (old, len) = (case.first, case.memory().len() as u64);
    let moved = |word: u64| {
        let address = word & 0xf_ffff_ffff_f000;
        match address.checked_sub(old) {
            Some(place) if place < len => (word ^ address) | (first + place),
            _ => word,
        }
    };
    for at in case.words() {
        let word = case.word(at);
        if word != 0 {
            case.put(at, moved(word));
        }
    }
    case.cr3 = moved(case.cr3);
    case.first = first;
}
