#![doc = include_str!("../README.md")]
#![no_std]
#![deny(missing_docs, unsafe_code)]

// The library's lengths have 64 bits.
#[cfg(not(target_pointer_width = "64"))]
compile_error!("Tablepath is for processors of 64 bits");

mod answers;
mod entry;
pub mod numbers;
mod pages;
#[allow(unsafe_code)]
pub mod raw;
mod reason;
mod rights;
mod size;
mod space;

pub use answers::{Found, Mapped, Page, Protected, State, Ticket, Unmapped};
pub use entry::{entry, Entry};
pub use pages::Pages;
pub use reason::Reason;
pub use rights::Rights;
pub use size::Size;
pub use space::{look_up, Space};
