//! Stands in for noblit's temporaries, so that `datom` compiles.
//!
//! Only long values of queries go there. The oracle's long values are constants of the heap.

use heap::{CidBytes, CidInt};

pub struct Temporaries;

impl Temporaries {
    pub fn push_u64(&mut self, _value: u64) -> CidInt {
        unreachable!("the oracle has no temporaries")
    }

    pub fn push_bytes(&mut self, _value: Box<[u8]>) -> CidBytes {
        unreachable!("the oracle has no temporaries")
    }

    pub fn push_string(&mut self, _value: String) -> CidBytes {
        unreachable!("the oracle has no temporaries")
    }
}
