//! small FILE: writes the example's window into FILE, and says its origin and root, as `picture` takes them.

use picture::example::example;
use std::{env, fs};

fn main() {
    let file = env::args().nth(1).expect("the name of a file");
    let (bytes, space) = example().expect("the example fits");
    fs::write(file, &bytes[..]).expect("the file can be written");
    println!("{:#x} {:#x}", space.origin(), space.root());
}
