//! The modules of noblit that the tree rests on; its own lib.rs lists the whole database.

pub mod binary;
pub mod datom;
pub mod heap;
pub mod htree;
pub mod index;
pub mod memory_store;
pub mod store;
pub mod temp_heap;
