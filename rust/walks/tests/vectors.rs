//! The compiled library, held to the vectors that the model is held to.

use model::vectors::vectors;
use walks::case::{Case, LookedUp};
use walks::library;

#[test]
fn every_vector() {
    for vector in vectors() {
        let case = Case::new(vector.bytes, vector.origin, vector.cr3, vector.va);
        assert_eq!(library::look_up(&case), LookedUp::from(vector.answer), "{}", vector.says);
    }
}
