//! The tables of any window as a picture: what each entry says is the proved library's word (`tablepath::entry`), and only how it is
//! drawn is not.

mod canvas;
pub mod example;
pub mod rows;
pub mod svg;
pub mod text;
pub mod tree;
pub mod words;

pub use tree::{Limits, Picture, Window};
