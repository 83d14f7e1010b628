//! The library, over its C interface.

use crate::feed::Order;
use crate::slab::Slab;

#[path = "../archive.rs"]
mod archive;

const REPEATED: u64 = 6;

/// The bytes of the store's record.
const RECORD: usize = 32;

pub struct Florinwick {
    pub slab: Slab,
    pub root: u64,
    order: Order,
    scratch: Vec<u8>,
}

impl Florinwick {
    pub fn new(slab: Slab, order: Order, root: u64) -> Florinwick {
        let need = unsafe { archive::florinwick_scratch_need(slab.page_size as u64) };
        Florinwick { slab, root, order, scratch: vec![0; need as usize] }
    }

    /// The store's record: page size, page count, heap length, order. All of a heap that is lent is in use.
    fn record(&self, heap: &[u8]) -> [u64; RECORD / 8] {
        [self.slab.page_size as u64, self.slab.count, heap.len() as u64, self.order as u64]
    }

    fn send(&mut self, heap: &[u8], root: u64, batch: &[u8]) -> [u64; 4] {
        let mut answer = [0u64; 4];
        let record = self.record(heap);
        let store = self.slab.bytes_mut();
        unsafe {
            archive::florinwick_insert(
                store.as_mut_ptr(), store.len(), heap.as_ptr(), heap.len(), record.as_ptr() as *const u8, RECORD, root,
                batch.as_ptr(), batch.len(), self.scratch.as_mut_ptr(), self.scratch.len(), answer.as_mut_ptr() as *mut u8, 32,
            );
        }
        answer
    }

    pub fn insert(&mut self, heap: &[u8], batch: &[u8]) {
        let [number, root, pages, _] = self.send(heap, self.root, batch);
        assert_eq!(number, 0, "a batch of the feed is refused");
        self.root = root;
        self.slab.count += pages;
    }

    /// A batch again at the root that it led to: the receipt is a refusal.
    pub fn resend(&mut self, heap: &[u8], batch: &[u8], root: u64) {
        assert_eq!(self.send(heap, root, batch)[0], REPEATED, "a batch that was resent is not refused");
    }

    /// How many datoms a listing of everything hands out, step by step, and the sum of their entities.
    pub fn list(&self, heap: &[u8]) -> (u64, u64) {
        let (store, record) = (self.slab.bytes(), self.record(heap));
        let record = record.as_ptr() as *const u8;
        let (mut cursor, mut datom, mut answer) = ([0u64; 33], [0u64; 4], [0u64; 4]);
        let (lower, upper) = ([0u64; 4], [u64::MAX; 4]);
        let (cursor, answer) = (cursor.as_mut_ptr() as *mut u8, answer.as_mut_ptr() as *mut u8);
        let (mut listed, mut sum) = (0, 0u64);
        unsafe {
            archive::florinwick_list_start(
                store.as_ptr(), store.len(), heap.as_ptr(), heap.len(), record, RECORD, self.root,
                lower.as_ptr() as *const u8, 32, upper.as_ptr() as *const u8, 32, cursor, 264, answer, 32,
            );
            while archive::florinwick_list_step(
                store.as_ptr(), store.len(), heap.as_ptr(), heap.len(), record, RECORD, cursor, 264, datom.as_mut_ptr() as *mut u8, 32,
                answer, 32,
            ) == 0
            {
                listed += 1;
                sum = sum.wrapping_add(datom[0]);
            }
        }
        (listed, sum)
    }

    pub fn check(&self, heap: &[u8]) {
        let mut answer = [0u64; 4];
        let (store, record) = (self.slab.bytes(), self.record(heap));
        let number = unsafe {
            archive::florinwick_check(
                store.as_ptr(), store.len(), heap.as_ptr(), heap.len(), record.as_ptr() as *const u8, RECORD, self.root,
                answer.as_mut_ptr() as *mut u8, 32,
            )
        };
        assert_eq!(number, 0, "a tree of the feed is not sound");
    }
}

/// Texts one behind the other on a heap that begins empty and has room for them: its bytes in use afterwards.
pub fn append(heap: &mut [u8], texts: &[Vec<u8>]) -> usize {
    let (mut used, mut answer) = (0, [0u64; 4]);
    for text in texts {
        let number = unsafe {
            archive::florinwick_append_bytes(
                heap.as_mut_ptr(), heap.len(), used, text.as_ptr(), text.len(), answer.as_mut_ptr() as *mut u8, 32,
            )
        };
        assert_eq!(number, 0, "a text of the feed is refused");
        used += answer[2];
    }
    used as usize
}
