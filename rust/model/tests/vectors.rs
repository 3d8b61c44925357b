//! The model itself, held to the vectors.

use model::vectors::{vectors, INDICES, ROOT, VA};
use model::{walk, Window};

#[test]
fn every_vector() {
    let list = vectors();
    assert!(list.len() > 210, "only {} vectors", list.len());
    for vector in &list {
        let walk = walk(vector.window(), vector.cr3, vector.va);
        assert_eq!(walk.answer, vector.answer, "{}", vector.says);
    }
}

#[test]
fn indices_of_document_01() {
    let list = vectors();
    let first = &list[0];
    let walk = walk(first.window(), first.cr3, VA);
    for (table, index) in INDICES.iter().enumerate() {
        let address = ROOT + 4096 * table as u64 + 8 * *index as u64;
        assert_eq!(walk.way[table].unwrap().address, address);
    }
}

#[test]
fn an_entry_is_eight_bytes_the_lowest_first() {
    let mut bytes = [0; 4096];
    bytes[..8].copy_from_slice(&[0xfe, 2, 3, 4, 5, 6, 7, 8]);
    let walk = walk(Window { bytes: &bytes, origin: 0 }, 0, 0);
    assert_eq!(walk.way[0].unwrap().word, 0x0807_0605_0403_02fe);
}
