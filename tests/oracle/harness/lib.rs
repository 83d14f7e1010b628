//! What programs that run the Rust oracle share: datoms, pages, heaps, both oracles, random numbers.
//!
//! A program links this crate and thereby both builds of noblit. It sees datoms as four words and
//! a store as bytes, never a type of noblit, so plain and patched are used alike.

#[cfg(not(all(target_pointer_width = "64", target_endian = "little")))]
compile_error!("the Rust stores datoms as the host has them: the oracle needs a 64-bit little-endian host");

mod answer;
mod damage;
mod datom;
mod heap;
mod node;
mod oracle;
mod pages;
mod panics;
mod random;
mod supply;

pub use answer::Answer;
pub use damage::{bad_constant, bad_value, readable_damage, relevel, spoiled, MALFORMED};
pub use datom::{byte_string, is_formed, Datom, Order, Word, MAX_VALUE};
pub use heap::{Constant, Heap};
pub use node::{capacity, Node, Rule, PAGE_SIZES};
pub use oracle::{Appended, By, Oracle, Verdict, Which};
pub use pages::{Pages, NONE};
pub use panics::Panic;
pub use random::Random;
pub use supply::{Held, Kind, Plan, Supply};
