//! The compiled library's look-up against a walk written from the manual, on random tables and addresses.

pub mod case;
pub mod cover;
mod lent;
pub mod library;
pub mod random;
mod scene;
pub mod shrink;
mod words;

use case::{Case, LookedUp};
use cover::Cover;
use random::Random;
use scene::Scene;

/// A case in which the two answers differ, and the number of the scene that it is from.
pub struct Difference {
    pub scene: u64,
    pub case: Case,
}

/// Asks `look_up` and the model about so many (tables, address) pairs, or until they differ.
/// Each scene has a seed of its own, so what is asked does not depend on the answers.
pub fn compare(look_up: impl Fn(&Case) -> LookedUp, seed: u64, pairs: u64, cover: &mut Cover) -> Option<Difference> {
    let mut scene = Scene::empty();
    for number in 0.. {
        let mut random = Random::new(seed, number);
        scene.build(&mut random);
        for _ in 0..scene.worth() {
            if cover.pairs >= pairs {
                return None;
            }
            let undo = scene.ask(&mut random, cover);
            let walk = scene.case.walk();
            cover.note(&scene.case, &walk);
            if look_up(&scene.case) != LookedUp::from(walk.answer) {
                return Some(Difference { scene: number, case: scene.case });
            }
            scene.undo(undo);
        }
    }
    unreachable!("scenes do not run out")
}
