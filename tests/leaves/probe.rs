//! The archive of crate probe. Every entry takes any bytes and any numbers, so the calls are safe.

use harness::{Datom, Order};

/// The answer where there is nothing to say.
pub const NOTHING: u64 = u64::MAX;

/// What is lent as the heap in use.
const NO_HEAP: &[u8] = &[];

mod archive {
    extern "C" {
        pub fn probe_rule(bytes: *const u8, length: usize, id: u64, order: u64, heap: *const u8, heap_length: usize) -> u64;
        pub fn probe_level(bytes: *const u8, length: usize, id: u64, order: u64, heap: *const u8, heap_length: usize) -> u64;
        pub fn probe_count(bytes: *const u8, length: usize, id: u64, order: u64, heap: *const u8, heap_length: usize) -> u64;
        pub fn probe_word(bytes: *const u8, length: usize, id: u64, i: usize, j: usize, order: u64, heap: *const u8, heap_length: usize) -> u64;
        pub fn probe_child(bytes: *const u8, length: usize, id: u64, i: usize, order: u64, heap: *const u8, heap_length: usize) -> u64;
        pub fn probe_next(bytes: *const u8, length: usize, id: u64, from: usize, order: u64, heap: *const u8, heap_length: usize) -> u64;
        pub fn probe_first(
            bytes: *const u8, length: usize, id: u64, sought: *const u8, sought_length: usize, order: u64, heap: *const u8, heap_length: usize,
        ) -> u64;
        pub fn probe_order(
            a: *const u8, a_length: usize, b: *const u8, b_length: usize, order: u64, heap: *const u8, heap_length: usize,
        ) -> u64;
        pub fn probe_fetch(store: *const u8, length: usize, size: u64, count: u64, page: u64) -> u64;
        pub fn probe_write(
            bytes: *const u8, length: usize, id: u64, free: *mut u8, free_length: usize, order: u64, heap: *const u8, heap_length: usize,
        ) -> u64;
    }
}

/// Bytes that are taken for the page with an id, in an order.
#[derive(Clone, Copy)]
pub struct Page<'a> {
    pub bytes: &'a [u8],
    pub id: u64,
    /// Any number, of which few are orders.
    pub order: u64,
}

impl<'a> Page<'a> {
    pub fn of(bytes: &'a [u8], id: u64, order: Order) -> Page<'a> {
        Page { bytes, id, order: order.number() }
    }

    /// The first broken rule, 1 to 7, or 0.
    pub fn rule(self) -> u64 {
        let Page { bytes, id, order } = self;
        unsafe { archive::probe_rule(bytes.as_ptr(), bytes.len(), id, order, NO_HEAP.as_ptr(), NO_HEAP.len()) }
    }

    pub fn level(self) -> u64 {
        let Page { bytes, id, order } = self;
        unsafe { archive::probe_level(bytes.as_ptr(), bytes.len(), id, order, NO_HEAP.as_ptr(), NO_HEAP.len()) }
    }

    pub fn count(self) -> u64 {
        let Page { bytes, id, order } = self;
        unsafe { archive::probe_count(bytes.as_ptr(), bytes.len(), id, order, NO_HEAP.as_ptr(), NO_HEAP.len()) }
    }

    pub fn word(self, i: usize, j: usize) -> u64 {
        let Page { bytes, id, order } = self;
        unsafe { archive::probe_word(bytes.as_ptr(), bytes.len(), id, i, j, order, NO_HEAP.as_ptr(), NO_HEAP.len()) }
    }

    pub fn child(self, i: usize) -> u64 {
        let Page { bytes, id, order } = self;
        unsafe { archive::probe_child(bytes.as_ptr(), bytes.len(), id, i, order, NO_HEAP.as_ptr(), NO_HEAP.len()) }
    }

    /// The first real child at or after an index.
    pub fn next(self, from: usize) -> u64 {
        let Page { bytes, id, order } = self;
        unsafe { archive::probe_next(bytes.as_ptr(), bytes.len(), id, from, order, NO_HEAP.as_ptr(), NO_HEAP.len()) }
    }

    /// The index of the first datom that is not below the one sought.
    pub fn first(self, sought: &[u8]) -> u64 {
        let Page { bytes, id, order } = self;
        unsafe {
            archive::probe_first(bytes.as_ptr(), bytes.len(), id, sought.as_ptr(), sought.len(), order, NO_HEAP.as_ptr(), NO_HEAP.len())
        }
    }

    /// Whether the page was written anew into `free`.
    pub fn write(self, free: &mut [u8]) -> bool {
        let Page { bytes, id, order } = self;
        let written = unsafe {
            archive::probe_write(bytes.as_ptr(), bytes.len(), id, free.as_mut_ptr(), free.len(), order, NO_HEAP.as_ptr(), NO_HEAP.len())
        };
        written == 1
    }
}

/// 0 below, 1 equal, 2 above.
pub fn order(a: &[u8], b: &[u8], order: u64) -> u64 {
    unsafe { archive::probe_order(a.as_ptr(), a.len(), b.as_ptr(), b.len(), order, NO_HEAP.as_ptr(), NO_HEAP.len()) }
}

/// The number that a fetch answers.
pub fn fetch(store: &[u8], size: u64, count: u64, page: u64) -> u64 {
    unsafe { archive::probe_fetch(store.as_ptr(), store.len(), size, count, page) }
}

pub fn bytes_of(datom: &Datom) -> Vec<u8> {
    datom.iter().flat_map(|word| word.to_le_bytes()).collect()
}
